//! Sources around the longest length: a long filler, and something that is decided just at the limit.

use crate::rng::Rng;
use crate::token::LIMIT;

/// What fills, and what stands at the end; the filler makes few tokens, so that answers stay short.
const ENDS: &[&str] = &[
    "", "a", "abc", ")", "@", "(", "(a", "((", "()", "12", "12ab", "-", "0x", "\x0c", "(;", "(; ;)", ";",
    ";)", " ", "\n", "a)", "a@", "a ", ") ", "))", "@@", "12 ", "a(", "-1)", "(;;)x", "é", "x @ y", "(a b)",
];

/// Ends with how many of their bytes stand below the limit: each has something held there, or handed out
/// just before it. They come first, so that a short run has them all.
const HELD: &[(&str, usize)] = &[
    ("(a", 1),
    ("a b", 1),
    (")a", 1),
    ("12 ", 2),
    ("12ab ", 4),
    ("\x0c", 0),
    ("(;", 1),
    ("@", 1),
    ("a\x0c", 1),
    ("((", 1),
    ("(;;)", 3),
    ("a)", 2),
    ("- ", 1),
    ("@", 0),
    ("", 0),
    ("(", 1),
];

/// The source, and the place where its end part begins.
pub fn source(turn: u64, op: u8, rng: &mut Rng) -> (Vec<u8>, usize) {
    // only the reader's answers to these are short
    if matches!(op, b'R' | b'W') && turn % 8 == 5 {
        // the table that comes nearest to its limit
        return (b"1(1)".repeat(LIMIT / 4), LIMIT);
    }
    if op == b'W' && turn % 8 == 3 {
        // many lines far to the right: more text than the probe has room for
        let items = "a ".repeat(9_000 + rng.below(9_000));
        return (["(".repeat(60), items, ")".repeat(60)].concat().into_bytes(), 0);
    }
    let (end, below) = match turn as usize % 32 {
        held @ 0..16 => HELD[held],
        _ => {
            let end = rng.pick(ENDS);
            (end, rng.below(end.len() + 2))
        }
    };
    let filler = LIMIT - below + if turn % 32 == 31 { 60_000 } else { 0 };
    let mut source = match rng.below(5) {
        0 => vec![b'q'; filler],
        1 => [b"; ".to_vec(), vec![b'c'; filler - 3], b"\n".to_vec()].concat(),
        2 => [b"(;".to_vec(), vec![b'('; filler - 4], b";)".to_vec()].concat(),
        3 => vec![b'0'; filler],
        _ => vec![b' '; filler],
    };
    source.extend(end.bytes());
    (source, filler)
}
