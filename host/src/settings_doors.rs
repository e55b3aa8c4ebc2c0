//! Settings per project: the C functions in guarded memory and the wrapper, held to the oracle's reading of document 02.

use tulbazhik::{Setting, Settings, SettingsError, Side};

use crate::cases::Cases;
use crate::cases::settings::record;
use crate::crate_side::CrateSide;
use crate::document::settings::{LIMIT, Value, copy as copied, look_up};
use crate::doors::of_error;
use crate::ffi::{self, LookUp, Words};
use crate::generate;
use crate::guarded::{Bytes, Lent};
use crate::token::Refusal;

// ---- the ways

fn word_of(side: Side) -> u64 {
    match side {
        Side::Project => 1,
        Side::House => 2,
        Side::Neither => 3,
    }
}

fn refused(side: u64, refusal: Refusal) -> Words {
    [6, refusal.place as u64, refusal.number as u64, 0, 0, 0, 0, side]
}

/// The words that a look-up is to give by the header.
fn expected(kind: u16, project: &[u8], house: &[u8]) -> Words {
    match look_up(&CrateSide, kind, project, house) {
        Ok(Value { whose, place, bytes }) if kind == 3 => {
            [8, place as u64, bytes.len() as u64, 0, 0, 0, 0, whose as u64 + 1]
        }
        Ok(Value { whose, bytes, .. }) => {
            let number = bytes.iter().rev().fold(0, |number, byte| number << 8 | *byte as u64);
            [8, 0, 0, 0, number, 0, 0, whose as u64 + 1]
        }
        Err((refusal, whose)) => refused(whose as u64 + 1, refusal),
    }
}

fn in_c(function: LookUp, project: &[u8], house: &[u8]) -> Words {
    let (mut project, mut house) = (Bytes::of(project), Bytes::of(house));
    let mut words = Lent::unwritten();
    // SAFETY: three pieces of memory of this function's own, of the sizes that are said.
    unsafe { function(project.lent(), project.len(), house.lent(), house.len(), words.lent()) };
    assert!(project.kept(0) && house.kept(0), "a file was changed");
    words.words()
}

/// The wrapper's answer as the words that it stands for; of a style name the place that its bytes stand at.
fn by_wrapper(kind: u16, settings: &Settings, project: &[u8], house: &[u8]) -> Words {
    let number = |Setting { value, side }: Setting<u64>| [8, 0, 0, 0, value, 0, 0, word_of(side)];
    let answer = match kind {
        1 => settings.edition().map(|set| number(Setting { value: set.value.into(), side: set.side })),
        2 => settings.width().map(|set| number(Setting { value: set.value.into(), side: set.side })),
        _ => settings.style().map(|Setting { value, side }| {
            let file = if side == Side::Project { project } else { house };
            let place = value.as_ptr().addr() - file.as_ptr().addr();
            [8, place as u64, value.len() as u64, 0, 0, 0, 0, word_of(side)]
        }),
    };
    answer.unwrap_or_else(|SettingsError { side, number, place }| {
        refused(word_of(side), Refusal { number: number as u32, place })
    })
}

/// What a write into a room of so many bytes gives, by C and by the wrapper: the answer, the bytes written, and whether all else was
/// kept.
fn written(file: &[u8], kind: u16, value: &[u8], room: usize) -> [(Words, Vec<u8>, bool); 2] {
    let width = || u32::from_le_bytes(value.try_into().expect("a width has 4 bytes"));
    let said = |words: Words, copy: Bytes| {
        let len = if words[0] == 8 { words[2] as usize } else { 0 };
        (words, copy.bytes()[..len].to_vec(), copy.kept(len))
    };
    let c = {
        let (mut lent, mut name) = (Bytes::of(file), Bytes::of(value));
        let (mut copy, mut words) = (Bytes::room(room), Lent::unwritten());
        // SAFETY: four pieces of memory of this function's own, of the sizes that are said.
        unsafe {
            let (from, into) = (lent.lent(), copy.lent());
            if kind == 2 {
                ffi::tulbazhik_write_width(from, lent.len(), width(), into, room, words.lent());
            } else {
                let (bytes, len) = (name.lent(), name.len());
                ffi::tulbazhik_write_style(from, lent.len(), bytes, len, into, room, words.lent());
            }
        }
        assert!(lent.kept(0) && name.kept(0), "the file or the name was changed");
        said(words.words(), copy)
    };
    let wrapper = {
        let mut copy = Bytes::room(room);
        // SAFETY: the room is this function's own.
        let into = unsafe { std::slice::from_raw_parts_mut(copy.lent(), room) };
        let answer = match kind {
            2 => tulbazhik::write_width_into(file, width(), into),
            _ => tulbazhik::write_style_into(file, value, into),
        };
        let words = match answer {
            Ok(len) => [8, 0, len as u64, 0, 0, 0, 0, 0],
            Err(error) => refused(0, of_error(error)),
        };
        said(words, copy)
    };
    [c, wrapper]
}

// ---- the cases

struct Tally {
    passed: u64,
    failed: u64,
}

impl Tally {
    fn tell(&mut self, right: bool, what: impl FnOnce() -> String) {
        self.passed += u64::from(right);
        self.failed += u64::from(!right);
        if !right && self.failed <= 5 {
            println!("host: {}", what());
        }
    }
}

const LOOK_UPS: [(u16, LookUp); 3] =
    [(1, ffi::tulbazhik_edition), (2, ffi::tulbazhik_width), (3, ffi::tulbazhik_style)];

/// Each look-up in two files: whether it gives what it is to, by each way, and for a project without a file.
fn look_ups(project: &[u8], house: &[u8], tally: &mut Tally) {
    for (kind, function) in LOOK_UPS {
        let (words, mut alone) = (expected(kind, project, house), expected(kind, house, house));
        // where the project has no file, the wrapper tells of the house's alone
        if alone[7] == 1 {
            alone[7] = 2;
        }
        let got = [
            ("C", words, in_c(function, project, house)),
            ("wrapper", words, by_wrapper(kind, &Settings::new(project, house), project, house)),
            ("house_only", alone, by_wrapper(kind, &Settings::house_only(house), &[], house)),
        ];
        for (way, words, got) in got {
            tally.tell(words == got, || format!("setting {kind} by {way}: expected {words:?}, got {got:?}"));
        }
    }
}

/// A write into rooms around the one that is needed.
fn writes(file: &[u8], kind: u16, value: &[u8], tally: &mut Tally) {
    let needed = copied(&CrateSide, file, kind, value, usize::MAX).map_or(0, |copy| copy.len());
    for room in [needed, needed + 3, needed.saturating_sub(1), 0] {
        let (words, copy) = match copied(&CrateSide, file, kind, value, room) {
            Ok(copy) => ([8, 0, copy.len() as u64, 0, 0, 0, 0, 0], copy),
            Err(refusal) => (refused(0, refusal), Vec::new()),
        };
        for (way, got) in ["C", "wrapper"].into_iter().zip(written(file, kind, value, room)) {
            let (said, bytes, kept) = got;
            tally.tell(said == words && bytes == copy && kept, || {
                format!("writing {kind} by {way} in {room}: expected {words:?}, got {said:?}, kept {kept}")
            });
        }
    }
}

/// A frame's bytes in two; a first part that is longer than all is all of it.
fn split(bytes: &[u8], first: u32) -> (&[u8], &[u8]) {
    bytes.split_at(bytes.len().min(first as usize))
}

/// So many of the oracle's cases of each op, and files at the limit: how many answers were right and wrong.
pub fn compared(cases: &Cases, each: u64) -> (u64, u64) {
    let mut tally = Tally { passed: 0, failed: 0 };
    for number in 0..each {
        let [looked, wide, named] = [b'S', b'T', b't'].map(|op| cases.frame(op, number));
        let (project, house) = split(&looked.bytes, looked.b);
        look_ups(project, house, &mut tally);
        writes(&wide.bytes, 2, &wide.a.to_le_bytes(), &mut tally);
        let (name, file) = split(&named.bytes, named.a);
        writes(file, 3, name, &mut tally);
    }
    // each kind twice, at the edges of the words that the code marks it in
    for kind in [1, 2, 3, 32768, 32831, 32832, 65535] {
        let twice = record(kind, if kind == 1 { &[0; 2] } else { &[0; 4] });
        let file = [record(1, &[1, 0]), twice.clone(), record(40000, b"between"), twice].concat();
        look_ups(&file, &file, &mut tally);
    }
    // full files, with and without a fault at the end, and one byte too many
    let house = [record(1, &[2, 0]), record(2, &[100, 0, 0, 0]), record(3, b"broad")].concat();
    let full = generate::settings(LIMIT);
    let second = [&full[..LIMIT - 8], &record(32768, &[0, 0])].concat();
    let files = [&full, &second, &generate::settings(LIMIT - 10), &generate::settings(LIMIT - 11), &[&full[..], b"x"].concat()];
    for file in files {
        look_ups(file, &house, &mut tally);
        look_ups(&house, file, &mut tally);
        writes(file, 2, &[100, 0, 0, 0], &mut tally);
        writes(file, 3, b"name", &mut tally);
    }
    (tally.passed, tally.failed)
}
