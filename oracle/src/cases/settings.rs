//! Settings files: every order of up to four records where the rules meet, good files cut and changed at every byte, random files and
//! files at the limit; and what is asked of them: which setting, with what other file, which width, name and room.

mod long;
mod records;

use super::room;
use crate::crate_side::CrateSide;
use crate::document::settings::{EDITION, FIRST_SKIPPED, LIMIT, STYLE, WIDTH, copy};
use crate::frame::{Frame, SOURCE_ROOM};
use crate::rng::Rng;
pub use records::record;
use records::{GOOD, good, records};

/// The longest rows of records that are all tried.
const LONGEST: u32 = 4;
/// Rooms that each row is copied into.
const ROOMS: u64 = 4;
/// What a byte is changed to: kinds, lengths and what is beside them.
const TELLING: &[u8] =
    &[0, 1, 2, 3, 4, 5, 6, 7, 8, 9, 10, 11, 14, 31, 32, 33, 37, 38, 39, 64, 127, 128, 129, 165, 254, 255];

pub struct Files {
    /// Records where the rules meet, the good ones first; the very first is an edition.
    records: Vec<Vec<u8>>,
    /// Good files.
    good: Vec<Vec<u8>>,
}

impl Files {
    pub fn new() -> Files {
        Files { records: records(), good: good() }
    }

    /// How many rows there are of up to so many records.
    fn rows(&self, most: u32) -> u64 {
        (0..=most).map(|len| (self.records.len() as u64).pow(len)).sum()
    }

    /// The row of this number, shorter ones first.
    fn row(&self, number: u64) -> Vec<u8> {
        let base = self.records.len() as u64;
        let (mut left, mut len) = (number, 0);
        while left >= base.pow(len) {
            left -= base.pow(len);
            len += 1;
        }
        let digits = (0..len).rev().map(|place| left / base.pow(place) % base);
        digits.flat_map(|digit| self.records[digit as usize].clone()).collect()
    }

    /// A good edition and such a row.
    fn row_behind(&self, number: u64) -> Vec<u8> {
        [self.records[0].clone(), self.row(number)].concat()
    }

    /// A good edition and some records, good ones more often than not.
    fn random_row(&self, rng: &mut Rng) -> Vec<u8> {
        let most = if rng.one_in(3) { self.records.len() } else { GOOD };
        let row = (0..rng.below(6)).flat_map(|_| self.records[rng.below(most)].clone());
        self.records[0].iter().copied().chain(row).collect()
    }

    /// The good file and the place in it of this number; a place may be the file's end.
    fn place(&self, number: u64) -> (&[u8], usize) {
        let mut left = number as usize % self.good.iter().map(|file| file.len() + 1).sum::<usize>();
        for file in &self.good {
            if left <= file.len() {
                return (file, left);
            }
            left -= file.len() + 1;
        }
        unreachable!("the number is below their sum")
    }

    /// Every good file without its end, at every byte.
    fn cut(&self, turn: u64) -> Vec<u8> {
        let (file, at) = self.place(turn);
        file[..at].to_vec()
    }

    /// Every good file with another byte at every place, behind its end too.
    fn changed(&self, turn: u64, rng: &mut Rng) -> Vec<u8> {
        let (file, at) = self.place(turn / TELLING.len() as u64);
        let byte = TELLING[(turn % TELLING.len() as u64) as usize];
        let mut changed = file.to_vec();
        match changed.get_mut(at) {
            None => changed.push(byte),
            Some(old) if *old == byte => *old ^= 1 << rng.below(8),
            Some(old) => *old = byte,
        }
        changed
    }

    fn any_good(&self, rng: &mut Rng) -> Vec<u8> {
        if rng.one_in(3) { random(rng) } else { self.good[rng.below(self.good.len())].clone() }
    }

    /// A file to stand beside the one that is tried.
    fn other(&self, rng: &mut Rng) -> Vec<u8> {
        match rng.below(12) {
            0 => Vec::new(),
            1 => self.random_row(rng),
            2 => self.cut(rng.next() >> 8),
            3 => self.changed(rng.next() >> 8, rng),
            _ => self.any_good(rng),
        }
    }

    fn file(&self, family: &str, turn: u64, rng: &mut Rng) -> Vec<u8> {
        match family {
            "cuts" => self.cut(turn),
            "changed" => self.changed(turn, rng),
            "files" if rng.one_in(2) => damaged(random(rng), rng),
            "files" => random(rng),
            _ => self.random_row(rng),
        }
    }

    pub fn frame(&self, op: u8, family: &str, turn: u64, rng: &mut Rng) -> Frame {
        if family == "orders" {
            return if op == b'S' { self.looked_up_row(turn, rng) } else { self.copied_row(op, turn, rng) };
        }
        let file = self.file(family, turn, rng);
        match op {
            b'S' => self.looked_up(rng.below(3), file, rng.one_in(3), rng),
            b'T' => width_frame(file, width(rng), |need| room(need, rng)),
            _ => style_frame(file, name(rng), |need| room(need, rng)),
        }
    }

    /// Every row of up to four records as the project's file; then those behind a good edition, with each question, as the project's and as
    /// the house file of a good project; then random ones.
    fn looked_up_row(&self, turn: u64, rng: &mut Rng) -> Frame {
        let (all, behind) = (self.rows(LONGEST), self.rows(LONGEST - 1));
        let Some(later) = turn.checked_sub(all) else {
            return self.looked_up(rng.below(3), self.row(turn), false, rng);
        };
        let (number, house, asked) = (later / 6, later % 2 == 1, later / 2 % 3);
        if number < behind {
            return self.looked_up(asked as usize, self.row_behind(number), house, rng);
        }
        self.looked_up(rng.below(3), self.random_row(rng), rng.one_in(2), rng)
    }

    fn looked_up(&self, asked: usize, file: Vec<u8>, house: bool, rng: &mut Rng) -> Frame {
        let (project, house) = if house { (self.any_good(rng), file) } else { (file, self.other(rng)) };
        two(asked, project, house)
    }

    /// Every row of up to three records behind a good edition, with each kind of room; then those of up to three that begin with anything;
    /// then random ones.
    fn copied_row(&self, op: u8, turn: u64, rng: &mut Rng) -> Frame {
        let rows = self.rows(LONGEST - 1);
        let (file, which) = match turn {
            _ if turn < rows * ROOMS => (self.row_behind(turn / ROOMS), turn % ROOMS),
            _ if turn < rows * (ROOMS + 1) => (self.row(turn - rows * ROOMS), rng.next() % ROOMS),
            _ => (self.random_row(rng), rng.next() % ROOMS),
        };
        let rooms = |need: usize| [need, need.saturating_sub(1), 0, need + 40][which as usize];
        if op == b'T' {
            width_frame(file, width(rng), rooms)
        } else {
            style_frame(file, good_name(rng), rooms)
        }
    }

    /// A file whose length, or whose copy's length, is at the limit or beside it, or that has as many records as can be.
    pub fn long(&self, op: u8, turn: u64, rng: &mut Rng) -> Frame {
        let len = LIMIT - 1 + rng.below(3);
        let (name, width) = (if rng.one_in(4) { name(rng) } else { good_name(rng) }, width(rng));
        let mut file = match (turn % 3, op) {
            (0, _) | (2, b'S') => long::filled(len, rng),
            (1, _) => long::many(len - rng.pick(&[0, 10, name.len() + 6]), rng),
            (_, b'T') => long::filled_for(len, WIDTH, 4, rng),
            _ => long::filled_for(len, STYLE, name.len(), rng),
        };
        if rng.one_in(6) {
            let at = rng.below(file.len());
            file[at] ^= 1 << rng.below(8);
        }
        match op {
            b'S' => match rng.below(4) {
                0 | 1 => two(rng.below(3), file, self.any_good(rng)),
                2 => two(rng.below(3), self.any_good(rng), file),
                _ => two(rng.below(3), file, long::filled(len, rng)),
            },
            b'T' => width_frame(file, width, |need| room(need, rng)),
            _ => style_frame(file, name, |need| room(need, rng)),
        }
    }
}

/// A good file of some records in any order.
fn random(rng: &mut Rng) -> Vec<u8> {
    let mut rows = Vec::new();
    if rng.one_in(2) {
        rows.push(record(WIDTH, &width(rng).to_le_bytes()));
    }
    if rng.one_in(2) {
        rows.push(record(STYLE, &good_name(rng)));
    }
    for at in 0..rng.below(6) as u16 {
        // of kinds whose places in a map of kinds are near each other
        let kind = rng.pick(&[FIRST_SKIPPED, 32_832, 40_000, 65_528]) + at;
        let value: Vec<u8> = (0..rng.pick(&[0, 0, 1, 2, 9])).map(|_| rng.below(256) as u8).collect();
        if rows.iter().all(|row| row[4..6] != kind.to_le_bytes()) {
            rows.insert(rng.below(rows.len() + 1), record(kind, &value));
        }
    }
    rows.insert(0, record(EDITION, &[rng.below(256) as u8, rng.below(256) as u8]));
    rows.concat()
}

/// A byte lost, put in or changed, or a piece of it again at the end.
fn damaged(mut file: Vec<u8>, rng: &mut Rng) -> Vec<u8> {
    let at = rng.below(file.len());
    match rng.below(5) {
        0 => drop(file.remove(at)),
        1 => file.insert(at, rng.pick(TELLING)),
        2 => file[at] = rng.pick(TELLING),
        3 => file.extend_from_within(at..),
        _ => file.extend_from_within(8..),
    }
    file
}

fn width(rng: &mut Rng) -> u32 {
    if rng.one_in(4) { rng.next() as u32 } else { rng.pick(&[0, 1, 80, u32::MAX]) }
}

fn bytes(len: usize, rng: &mut Rng) -> Vec<u8> {
    (0..len).map(|_| rng.below(256) as u8).collect()
}

fn good_name(rng: &mut Rng) -> Vec<u8> {
    let len = if rng.one_in(2) { rng.pick(&[1, 32]) } else { 1 + rng.below(32) };
    bytes(len, rng)
}

/// Of lengths that are refused too.
fn name(rng: &mut Rng) -> Vec<u8> {
    let len = if rng.one_in(2) { rng.pick(&[0, 1, 31, 32, 33, 300]) } else { rng.below(40) };
    bytes(len, rng)
}

fn two(asked: usize, project: Vec<u8>, house: Vec<u8>) -> Frame {
    assert!(project.len() + house.len() <= SOURCE_ROOM);
    Frame { op: b'S', a: asked as u32, b: project.len() as u32, bytes: [project, house].concat() }
}

/// What the copy needs; of a refused one what the file has.
fn need(file: &[u8], kind: u16, value: &[u8]) -> usize {
    copy(&CrateSide, file, kind, value, usize::MAX).map_or(file.len(), |copy| copy.len())
}

fn width_frame(file: Vec<u8>, width: u32, room: impl FnOnce(usize) -> usize) -> Frame {
    let room = room(need(&file, WIDTH, &width.to_le_bytes()));
    Frame { op: b'T', a: width, b: room as u32, bytes: file }
}

fn style_frame(file: Vec<u8>, name: Vec<u8>, room: impl FnOnce(usize) -> usize) -> Frame {
    let room = room(need(&file, STYLE, &name));
    Frame { op: b't', a: name.len() as u32, b: room as u32, bytes: [name, file].concat() }
}

#[cfg(test)]
mod tests;
