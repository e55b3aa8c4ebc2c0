//! Cases: which family a case of an op is drawn from, and its cuts, rooms and widths.

mod comments;
mod costs;
mod limit;
mod literals;
mod looks;
mod lowest;
mod masks;
mod pieces;
pub mod settings;
mod source_trees;
mod tables;
mod text;
mod windows;

use std::collections::BTreeMap;

use crate::answer::{Side, read};
use crate::crate_side::CrateSide;
use crate::document::layout;
use crate::frame::{Frame, SOURCE_ROOM};
use crate::rng::Rng;
use crate::token::LIMIT;
use crate::worked;
use lowest::Lowest;
use settings::Files;
use tables::SmallTrees;

/// Real ISLE text to cut sources from, where it is at hand.
const REAL: &str = concat!(env!("CARGO_MANIFEST_DIR"), "/../../shared/bench/real.isle");

/// How often each family comes up among sources, besides those where a source is printed too, among tables, among tables whose print
/// is counted, and among settings files.
const SOURCES: &[(&str, usize)] = &[
    ("pieces", 8),
    ("literals", 3),
    ("comments", 1),
    ("text", 1),
    ("damaged", 1),
    ("bytes", 1),
    ("trees", 2),
    ("real", 1),
];
const PRINTED: &[(&str, usize)] = &[("lowest", 2)];
const TABLES: &[(&str, usize)] = &[("small", 4), ("tables", 3), ("broken", 3), ("lowest", 1), ("costs", 3)];
const COUNTED: &[(&str, usize)] =
    &[("small", 4), ("tables", 3), ("broken", 2), ("looks", 4), ("lowest", 1), ("costs", 2)];
const SETTINGS: &[(&str, usize)] = &[("orders", 15), ("cuts", 1), ("changed", 2), ("files", 2)];

/// One source at the length limit in so many cases: each is a megabyte.
const LIMIT_EVERY: u64 = 2000;

pub struct Cases {
    seed: u64,
    sources: Vec<&'static str>,
    printed: Vec<&'static str>,
    tables: Vec<&'static str>,
    counted: Vec<&'static str>,
    settings: Vec<&'static str>,
    limit: bool,
    /// A sample is to be small and varied; otherwise the enumerated families go through in order.
    sample: bool,
    real: Vec<u8>,
    small: SmallTrees,
    lowest: Lowest,
    files: Files,
    /// The documents' own cases come first, by op, unless families are chosen.
    worked: BTreeMap<u8, Vec<Frame>>,
}

impl Cases {
    pub fn new(seed: u64, families: &[String], sample: bool) -> Result<Cases, String> {
        let chosen = |name: &str| families.is_empty() || families.iter().any(|family| family == name);
        let known = |name: &str| {
            let mut all = SOURCES.iter().chain(PRINTED).chain(TABLES).chain(COUNTED).chain(SETTINGS);
            all.any(|(family, _)| *family == name) || name == "limit"
        };
        if let Some(name) = families.iter().find(|name| !known(name)) {
            return Err(format!("no family {name}"));
        }
        let spread = |weights: &'static [(&'static str, usize)]| -> Vec<&'static str> {
            let names = weights.iter().filter(|(name, _)| chosen(name));
            names.flat_map(|(name, weight)| std::iter::repeat_n(*name, *weight)).collect()
        };
        let mut worked = BTreeMap::<u8, Vec<Frame>>::new();
        if families.is_empty() {
            let masks = if sample { Vec::new() } else { masks::frames() };
            for frame in worked::frames().into_iter().chain(masks) {
                worked.entry(frame.op).or_default().push(frame);
            }
        }
        // a stored sample must not depend on a file that may be missing
        let real = if sample { Vec::new() } else { std::fs::read(REAL).unwrap_or_default() };
        Ok(Cases {
            seed,
            sources: spread(SOURCES),
            printed: [spread(SOURCES), spread(PRINTED)].concat(),
            tables: spread(TABLES),
            counted: spread(COUNTED),
            settings: spread(SETTINGS),
            limit: chosen("limit") && !sample,
            sample,
            real,
            small: SmallTrees::new(if sample { 4 } else { 7 }),
            lowest: Lowest::new(sample),
            files: Files::new(),
            worked,
        })
    }

    /// The case of this number, the same for a seed whatever other cases are run.
    pub fn frame(&self, op: u8, number: u64) -> Frame {
        let mut rng = Rng::of(&[self.seed, op as u64, number]);
        let worked = self.worked.get(&op).map_or(&[][..], Vec::as_slice);
        if let Some(frame) = worked.get(number as usize) {
            return frame.clone();
        }
        // what is put between takes no number from the families, so that an enumeration stays whole
        let mut number = number - worked.len() as u64;
        if self.limit && self.families_of(op).is_empty() {
            return self.limit_frame(op, number, &mut rng);
        }
        if self.limit && number % LIMIT_EVERY == LIMIT_EVERY / 2 {
            return self.limit_frame(op, number / LIMIT_EVERY, &mut rng);
        }
        if self.limit {
            number -= (number + LIMIT_EVERY / 2 - 1) / LIMIT_EVERY;
        }
        if takes_table(op) {
            return self.table_frame(op, number, &mut rng);
        }
        if takes_settings(op) {
            let (family, turn) = self.turn(&self.settings, number, &mut rng);
            return self.files.frame(op, family, turn, &mut rng);
        }
        let (source, width) = self.source(op, number, &mut rng);
        let len = source.len();
        let (a, b) = match op {
            b'L' => (start(len, &mut rng), 0),
            b'R' => (room_for_table(&source, &mut rng), 0),
            b'W' => (width, 0),
            _ => cuts(len, &mut rng),
        };
        Frame { op, a: a as u32, b: b as u32, bytes: source }
    }

    fn families_of(&self, op: u8) -> &[&'static str] {
        match op {
            b'Q' => &self.counted,
            b'W' => &self.printed,
            // the stored sample of V is older than the count, and keeps its tables
            b'V' if !self.sample => &self.counted,
            _ if takes_table(op) => &self.tables,
            _ if takes_settings(op) => &self.settings,
            _ => &self.sources,
        }
    }

    /// The family of this case, and the how-manieth of its family it is, so that an enumeration leaves
    /// nothing out. A sample takes any.
    fn turn(&self, families: &[&'static str], number: u64, rng: &mut Rng) -> (&'static str, u64) {
        let Some(&family) = families.get(number as usize % families.len().max(1)) else {
            return ("none", number);
        };
        let count = families.len() as u64;
        let slots = families.iter().filter(|name| **name == family).count() as u64;
        let first = families.iter().position(|name| *name == family).expect("it was drawn") as u64;
        let turn = number / count * slots + number % count - first;
        (family, if self.sample { rng.next() >> 8 } else { turn })
    }

    /// A source, and a width for where it is printed.
    fn source(&self, op: u8, number: u64, rng: &mut Rng) -> (Vec<u8>, usize) {
        let (family, turn) = self.turn(self.families_of(op), number, rng);
        if family == "lowest" {
            return self.lowest.source(turn, rng);
        }
        let mut source = match family {
            "pieces" if self.sample => pieces::random(5, rng),
            "pieces" => pieces::nth(turn).unwrap_or_else(|| pieces::random(9, rng)),
            "literals" => literals::source(turn, rng),
            "comments" => comments::source(rng),
            "damaged" => text::damaged(text::isle(rng), rng),
            "bytes" => text::bytes(rng),
            "trees" => source_trees::source(rng),
            "real" if !self.real.is_empty() => text::slice(&self.real, rng),
            _ => text::isle(rng),
        };
        if self.sample {
            source.truncate(400);
        }
        let width = if op == b'W' { width(20, rng) } else { 0 };
        (source, width)
    }

    /// A source or a settings file at the limit; for an op that takes a table one with many records.
    fn limit_frame(&self, op: u8, turn: u64, rng: &mut Rng) -> Frame {
        if takes_settings(op) {
            return self.files.long(op, turn, rng);
        }
        if takes_table(op) {
            let (mut table, width) =
                if op == b'Q' && turn % 2 == 1 { looks::large(rng) } else { tables::large(rng) };
            if rng.one_in(4) {
                costs::change(&mut table, rng);
            }
            return of_table(op, table, width, self.sample, rng);
        }
        let (source, end) = match turn % 32 {
            17 if !self.real.is_empty() => (self.real.clone(), self.real.len()),
            _ => limit::source(turn, op, rng),
        };
        assert!(source.len() <= SOURCE_ROOM);
        let (a, b) = match op {
            b'L' => (rng.pick(&[0, end.min(source.len()), source.len()]), 0),
            b'R' => (room_for_table(&source, rng), 0),
            b'W' => (100, 0),
            // cuts at and around the place where it is decided, and never a million pieces
            _ => (
                rng.pick(&[
                    LIMIT,
                    LIMIT - 1,
                    LIMIT + 1,
                    end,
                    end + 1,
                    end.saturating_sub(1),
                    0,
                    source.len(),
                ]),
                rng.pick(&[LIMIT, 70_000, 4096, LIMIT / 2, 1 << 18]),
            ),
        };
        Frame { op, a: a as u32, b: b as u32, bytes: source }
    }

    fn table_frame(&self, op: u8, number: u64, rng: &mut Rng) -> Frame {
        let (family, turn) = self.turn(self.families_of(op), number, rng);
        let (table, width) = match family {
            "small" => self.small.nth(turn, rng),
            "lowest" => self.lowest.table(turn, rng),
            "looks" => looks::table(self.sample, rng),
            "costs" => costs::table(turn, rng),
            "broken" => (tables::broken(rng), width(30, rng)),
            _ => tables::random(self.sample, rng),
        };
        of_table(op, table, width, self.sample, rng)
    }
}

/// The ops that are given a table and not a source.
fn takes_table(op: u8) -> bool {
    matches!(op, b'P' | b'K' | b'V' | b'v' | b'Q')
}

/// The ops that are given settings files.
fn takes_settings(op: u8) -> bool {
    matches!(op, b'S' | b'T' | b't')
}

fn of_table(op: u8, table: Vec<u8>, width: usize, small: bool, rng: &mut Rng) -> Frame {
    match op {
        // the number makes no difference
        b'K' => return Frame { op, a: rng.below(2) as u32, b: 0, bytes: table },
        b'V' | b'v' => return windows::frame(op, table, width, small, rng),
        _ => {}
    }
    let need = match CrateSide.check(&table) {
        Ok(trees) => layout::page(&trees, width).out.len(),
        Err(_) => table.len(),
    };
    if op == b'Q' {
        return of_counted(table, width, need, rng);
    }
    Frame { op, a: width as u32, b: room(need, rng) as u32, bytes: table }
}

/// A refused print reports nothing, so that the room is enough more often than not. The byte for the layout is 0, for there is one.
fn of_counted(table: Vec<u8>, width: usize, need: usize, rng: &mut Rng) -> Frame {
    let room = if rng.one_in(4) { room(need, rng) } else { need + rng.below(50) };
    Frame { op: b'Q', a: width as u32, b: room as u32, bytes: [vec![0], table].concat() }
}

/// Mostly the source's start, else any place in it and a little beyond.
fn start(len: usize, rng: &mut Rng) -> usize {
    match rng.below(16) {
        0 => len + rng.below(3),
        1 => rng.pick(&[u32::MAX as usize, LIMIT, len]),
        2 | 3 => rng.below(len + 1),
        _ => 0,
    }
}

/// Rooms at the edge of what is needed, or ample.
fn room(need: usize, rng: &mut Rng) -> usize {
    match rng.below(8) {
        0..3 => need,
        3 => need.saturating_sub(1),
        4 => 0,
        5 => rng.below(need + 2),
        6 => need + 1 + rng.below(50),
        // more than the probe has, now and then: it is a lot to fill
        _ if rng.one_in(60) => u32::MAX as usize,
        _ => need + 4096,
    }
}

fn room_for_table(source: &[u8], rng: &mut Rng) -> usize {
    match read(&CrateSide, source, usize::MAX) {
        Ok(table) => room(table.len(), rng),
        Err(_) => rng.below(200),
    }
}

fn width(usual: usize, rng: &mut Rng) -> usize {
    match rng.below(8) {
        0 => rng.pick(&[0, 1, 2, 100, u32::MAX as usize, u32::MAX as usize - 1]),
        1 => rng.below(200),
        _ => rng.below(usual + 1),
    }
}

fn cuts(len: usize, rng: &mut Rng) -> (usize, usize) {
    let first = match rng.below(6) {
        0 => 0,
        1 => 1,
        2 => len + rng.below(3),
        _ => rng.below(len + 1),
    };
    let later = match rng.below(6) {
        0 => 0,
        1 | 2 => 1,
        3 => 2,
        4 => 3 + rng.below(5),
        _ => 1 + rng.below(len + 1),
    };
    (first, later)
}
