//! Prints through windows, worked by hand from document 02.

use super::{Case, case};
use crate::windows::Calls;

const ATOM: &[u8] = b"\x07\0\0\0\x01\0a";
/// `(a b)`, of cost 5.
const PAIR: &[u8] = b"\x0e\0\0\0\x05\0\x02\0\0\0\x05\0\0\0\x07\0\0\0\x01\0a\x07\0\0\0\x01\0b";
/// `x @ (a)`, whose list has cost 3.
const BOUND: &[u8] = b"\x07\0\0\0\x03\0x\x0e\0\0\0\x05\0\x01\0\0\0\x03\0\0\0\x07\0\0\0\x01\0a";
const NO_SYMBOL: &[u8] = b"\x06\0\0\0\x01\0";

/// The end, with what the fits test looked at: nothing of atoms, one cost of `x @ (a)` and of `(a b)`.
const NONE: &str = "end\nlooked 0";
const ONE: &str = "end\nlooked 1";

fn calls(lengths: &[u32], first: usize, x: &[u8], y: &[u8]) -> Vec<u8> {
    Calls { lengths: lengths.to_vec(), first, x: x.to_vec(), y: y.to_vec() }.bytes()
}

/// One table in all calls; the other one is never looked at.
fn one(width: u32, lengths: &[u32], table: &[u8], answers: &[&str]) -> Case {
    two(width, lengths, lengths.len(), table, NO_SYMBOL, answers)
}

fn two(width: u32, lengths: &[u32], first: usize, x: &[u8], y: &[u8], answers: &[&str]) -> Case {
    case('V', width, 0, calls(lengths, first, x, y), lines(answers))
}

/// Each answer, and that every other byte of its room is kept.
fn lines(answers: &[&str]) -> String {
    answers.iter().map(|answer| format!("{answer}\nkept")).collect::<Vec<_>>().join("\n")
}

pub fn cases() -> Vec<Case> {
    [whole(), refused(), fresh_again(), left_open()].concat()
}

fn whole() -> Vec<Case> {
    let long = [&b"\x5e\x02\0\0\x01\0"[..], &[b'w'; 600]].concat();
    let (front, back) = ("77".repeat(512), "77".repeat(88));
    vec![
        one(
            5,
            &[2, 3, 0, 2, 5, 0],
            PAIR,
            &["window 2\n2861", "window 3\n206229", "window 0\n", "window 1\n0a", ONE, ONE],
        ),
        one(5, &[6, 1], PAIR, &["window 6\n28612062290a", ONE]),
        one(5, &[5, 0, 1, 0], PAIR, &["window 5\n2861206229", "window 0\n", "window 1\n0a", ONE]),
        one(5, &[u32::MAX, 2_097_152], PAIR, &["window 6\n28612062290a", ONE]),
        one(4, &[4, 4, 4, 4], PAIR, &["window 4\n28610a20", "window 4\n20202062", "window 3\n0a290a", ONE]),
        one(
            9,
            &[2, 2, 2, 2, 2],
            BOUND,
            &["window 2\n7820", "window 2\n4020", "window 2\n2861", "window 2\n290a", ONE],
        ),
        one(
            9,
            &[1, 1, 1, 1, 1, 1],
            &[ATOM, ATOM].concat(),
            &["window 1\n61", "window 1\n0a", "window 1\n0a", "window 1\n61", "window 1\n0a", NONE],
        ),
        one(
            9,
            &[512, 512, 512],
            &long,
            &[&format!("window 512\n{front}"), &format!("window 89\n{back}0a"), NONE],
        ),
        one(9, &[0, 5], b"", &[NONE, NONE]),
        // the same bytes are the same table
        two(5, &[3, 3, 3], 1, PAIR, PAIR, &["window 3\n286120", "window 3\n62290a", ONE]),
        // four numbers of which the calls say nine, and no table
        case('V', 9, 0, [9, 0, 0, 0].repeat(4), lines(&[NONE])),
    ]
}

/// Every number, and the first call finds it, also with an empty window.
fn refused() -> Vec<Case> {
    let tables: &[(&[u8], &str)] = &[
        (&b"\x07\0\0\0\x03\0n".repeat(65), "refusal 13 at 448"),
        (b"\x07\0\0\0\x01\0", "refusal 15 at 0"),
        (&[ATOM, NO_SYMBOL].concat(), "refusal 16 at 7"),
        (b"\x07\0\0\0\x04\0x", "refusal 20 at 0"),
        (b"\x07\0\0\0\x02\0x", "refusal 21 at 0"),
        (b"\x07\0\0\0\x03\0x", "refusal 22 at 7"),
    ];
    tables.iter().map(|(table, answer)| one(9, &[0, 1, 512], table, &[*answer; 3])).collect()
}

/// Calls that move nothing, and then another table.
fn fresh_again() -> Vec<Case> {
    vec![
        two(
            5,
            &[0, 7, 7, 7],
            2,
            NO_SYMBOL,
            PAIR,
            &["refusal 16 at 0", "refusal 16 at 0", "window 6\n28612062290a", ONE],
        ),
        two(5, &[0, 9, 9], 1, ATOM, PAIR, &["window 0\n", "window 6\n28612062290a", ONE]),
        two(5, &[0, 9, 9], 1, ATOM, NO_SYMBOL, &["window 0\n", "refusal 16 at 0", "refusal 16 at 0"]),
        two(5, &[9, 9], 1, NO_SYMBOL, b"", &["refusal 16 at 0", NONE]),
    ]
}

/// Another table or width after bytes, or an end, were given.
fn left_open() -> Vec<Case> {
    let v = |lengths: &[u32], first, x: &[u8], y: &[u8]| {
        case('v', 5, 4, calls(lengths, first, x, y), vec!["inside"; lengths.len()].join("\n"))
    };
    vec![
        v(&[2, 9, 9], 1, PAIR, ATOM),
        v(&[2, 9, 0, 9], 1, PAIR, PAIR),
        v(&[2, 9, 9], 1, PAIR, b""),
        v(&[2, 9, 9], 1, PAIR, b"\xff\xff\xff\xff\x05\0\xff\xff\xff\xff"),
        v(&[9, 9, 9], 1, b"", PAIR),
        v(&[9, 9, 9], 2, PAIR, BOUND),
        v(&[0, u32::MAX], 1, NO_SYMBOL, PAIR),
    ]
}
