//! That the cases of S, T and t meet each answer, and tell it from what wrong checks of a file answer.

use std::collections::BTreeMap;

use crate::answer::{Printed, Side, answer};
use crate::cases::Cases;
use crate::crate_side::CrateSide;
use crate::document::settings::{EDITION, FIRST_SKIPPED, HEAD, LIMIT, STYLE, Setting, WIDTH};
use crate::drive::Feeder;
use crate::frame::Frame;
use crate::token::{Lexed, Refusal};
use crate::tree::Tree;

/// A check of a file, with what it may have wrong.
#[derive(Clone, Copy)]
struct Rules {
    /// Whether a record of this kind and payload is good by itself, and whether a kind may come again.
    good: fn(u16, usize) -> bool,
    again: fn(u16) -> bool,
    edition_first: bool,
    empty_is_bad: bool,
    /// Fewer bytes at the end are no matter.
    shortest: usize,
    /// A length past the end counts as what there is.
    reaches: bool,
    /// Of two of a kind the first is named.
    names_first: bool,
}

fn is_good(kind: u16, len: usize) -> bool {
    match kind {
        EDITION => len == 2,
        WIDTH => len == 4,
        STYLE => len > 0 && len < 33,
        _ => kind >= FIRST_SKIPPED,
    }
}

const RIGHT: Rules = Rules {
    good: is_good,
    again: |_| false,
    edition_first: true,
    empty_is_bad: true,
    shortest: 1,
    reaches: false,
    names_first: false,
};

const fn good(good: fn(u16, usize) -> bool) -> Rules {
    Rules { good, ..RIGHT }
}

const fn again(again: fn(u16) -> bool) -> Rules {
    Rules { again, ..RIGHT }
}

const WRONG: &[(&str, Rules)] = &[
    ("no edition first", Rules { edition_first: false, ..RIGHT }),
    ("an empty file is good", Rules { empty_is_bad: false, ..RIGHT }),
    ("no whole head at the end", Rules { shortest: HEAD, ..RIGHT }),
    ("a length past the end", Rules { reaches: true, ..RIGHT }),
    ("the first of two", Rules { names_first: true, ..RIGHT }),
    ("a second edition", again(|kind| kind == EDITION)),
    ("a second width", again(|kind| kind == WIDTH)),
    ("a second style name", again(|kind| kind == STYLE)),
    ("a second of 32768", again(|kind| kind == FIRST_SKIPPED)),
    ("a second of 65535", again(|kind| kind == u16::MAX)),
    ("an edition of 1 byte", good(|kind, len| is_good(kind, len) || (kind, len) == (EDITION, 1))),
    ("an edition of 3 bytes", good(|kind, len| is_good(kind, len) || (kind, len) == (EDITION, 3))),
    ("a width of 3 bytes", good(|kind, len| is_good(kind, len) || (kind, len) == (WIDTH, 3))),
    ("a width of 5 bytes", good(|kind, len| is_good(kind, len) || (kind, len) == (WIDTH, 5))),
    ("a style name of no byte", good(|kind, len| is_good(kind, len) || (kind, len) == (STYLE, 0))),
    ("a style name of 33 bytes", good(|kind, len| is_good(kind, len) || (kind, len) == (STYLE, 33))),
    ("no style name of 32 bytes", good(|kind, len| is_good(kind, len) && (kind, len) != (STYLE, 32))),
    ("kind 0", good(|kind, len| is_good(kind, len) || kind == 0)),
    ("kind 4", good(|kind, len| is_good(kind, len) || kind == 4)),
    ("kind 32767", good(|kind, len| is_good(kind, len) || kind == FIRST_SKIPPED - 1)),
    ("kind 32768 is not skipped", good(|kind, len| is_good(kind, len) && kind != FIRST_SKIPPED)),
    ("kind 65535 is not skipped", good(|kind, len| is_good(kind, len) && kind != u16::MAX)),
    ("skipped without a payload", good(|kind, len| is_good(kind, len) && (kind < FIRST_SKIPPED || len > 0))),
    ("skipped with a payload", good(|kind, len| is_good(kind, len) && (kind < FIRST_SKIPPED || len == 0))),
];

impl Side for Rules {
    fn settings(&self, file: &[u8]) -> Result<Vec<Setting>, usize> {
        let (mut found, mut starts, mut at) = (Vec::new(), BTreeMap::new(), 0);
        if file.is_empty() && self.empty_is_bad {
            return Err(0);
        }
        while file.len() - at >= self.shortest {
            let head = file[at..].first_chunk::<HEAD>().ok_or(at)?;
            let said = u32::from_le_bytes([head[0], head[1], head[2], head[3]]) as usize;
            let whole = if self.reaches { said.min(file.len() - at) } else { said };
            let kind = u16::from_le_bytes([head[4], head[5]]);
            if at == 0 && kind != EDITION && self.edition_first {
                return Err(0);
            }
            if whole < HEAD || whole > file.len() - at || !(self.good)(kind, whole - HEAD) {
                return Err(at);
            }
            if let Some(before) = starts.insert(kind, at).filter(|_| !(self.again)(kind)) {
                return Err(if self.names_first { before } else { at });
            }
            found.push(Setting { kind, place: at + HEAD, len: whole - HEAD });
            at += whole;
        }
        Ok(found)
    }

    fn lex(&self, _: &[u8], _: usize) -> Lexed {
        unreachable!("settings alone")
    }

    fn feeder(&self, _: &[u8]) -> Box<dyn Feeder> {
        unreachable!("settings alone")
    }

    fn read(&self, _: &[u8]) -> Result<Vec<u8>, Refusal> {
        unreachable!("settings alone")
    }

    fn check(&self, _: &[u8]) -> Result<Vec<Tree>, Refusal> {
        unreachable!("settings alone")
    }

    fn lay_out(&self, _: &[Tree], _: usize) -> Printed {
        unreachable!("settings alone")
    }
}

fn lines(side: &dyn Side, frame: &Frame) -> String {
    let mut out = Vec::new();
    answer(side, frame, &mut out);
    String::from_utf8(out).unwrap()
}

/// The answer in short: its first word, or a refusal's number, and whose file it is about. Of a 1 in writing also whether it is the copy's.
fn kind_of(frame: &Frame, lines: &str) -> String {
    let words: Vec<&str> = lines.lines().next().unwrap().split(' ').collect();
    let file = frame.bytes.len() - if frame.op == b't' { frame.a as usize } else { 0 };
    let kind = match &words[..] {
        ["refusal", number, "at", _, whose @ ..] => format!("{number} {}", whose.concat()),
        ["part", whose, ..] => format!("part {whose}"),
        words => words[0].to_string(),
    };
    let copy = frame.op != b'S' && kind == "1 " && file <= LIMIT;
    format!("{} {kind}{}", frame.op as char, if copy { "copy" } else { "" })
}

/// Every answer, and those at the limit.
const SHORT: &[&str] = &[
    "S width",
    "S style",
    "S part Project",
    "S part House",
    "S 23 Project",
    "S 23 House",
    "S 24 Neither",
    "T file",
    "T 23 ",
    "T 18 ",
    "t file",
    "t 23 ",
    "t 26 ",
    "t 18 ",
];
const LONG: &[&str] = &[
    "S 1 Project",
    "S 1 House",
    "S 23 Project",
    "S 23 House",
    "S 24 Neither",
    "T 1 ",
    "T 1 copy",
    "T 18 ",
    "T 23 ",
    "T file",
    "t 1 ",
    "t 1 copy",
    "t 18 ",
    "t 23 ",
    "t file",
];

/// Goes through so many cases of each op, and through their answers.
fn each_case(cases: &Cases, each: u64, mut see: impl FnMut(&Frame, &str)) {
    for op in [b'S', b'T', b't'] {
        for number in 0..each {
            let frame = cases.frame(op, number);
            let right = lines(&CrateSide, &frame);
            assert_eq!(lines(&RIGHT, &frame), right, "case {number} of op {}", op as char);
            see(&frame, &right);
        }
    }
}

fn assert_met(kinds: &BTreeMap<String, usize>, wanted: &[&str], least: usize) {
    let met = |kind: &&str| kinds.get(*kind).copied().unwrap_or(0);
    assert!(wanted.iter().all(|kind| met(kind) >= least), "{kinds:?}");
}

#[test]
fn cases_of_settings_tell_answers_apart() {
    for (sample, each, least) in [(false, 20_000, 100), (true, 400, 4)] {
        let (mut kinds, mut differ) = (BTreeMap::new(), [0; WRONG.len()]);
        each_case(&Cases::new(1, &[], sample).unwrap(), each, |frame, right| {
            *kinds.entry(kind_of(frame, right)).or_default() += 1;
            for (count, (_, wrong)) in differ.iter_mut().zip(WRONG) {
                *count += usize::from(lines(wrong, frame) != right);
            }
        });
        assert_met(&kinds, SHORT, least);
        for ((name, _), count) in WRONG.iter().zip(differ) {
            assert!(count >= least, "{name}: {count} of {each} cases of each op");
        }
    }
}

/// As many as a comparison has by default of T and of t.
#[test]
fn cases_at_the_limit_meet_each_answer() {
    let mut kinds = BTreeMap::new();
    each_case(&Cases::new(1, &["limit".to_string()], false).unwrap(), 200, |frame, right| {
        *kinds.entry(kind_of(frame, right)).or_default() += 1;
    });
    assert_met(&kinds, LONG, 5);
}
