//! Sources for the reader: nesting around the depth limit, and faults, one or two to a file.

use super::text;
use crate::rng::Rng;

const FAULTS: &[&str] = &[
    ")",
    "@",
    "x @ )",
    "x @",
    "x @ @ y",
    "(x @)",
    "12ab",
    "-",
    "0x",
    "\x0c",
    "(;",
    "(",
    "((a)",
    "5 @ a",
    "(a) @ b",
    "x @ 12ab",
    "x @ (;",
    "x @ \x0c",
    "x \x0c @ y",
    "-0x80000000000000000000000000000000",
    "340282366920938463463374607431768211456",
    "a @ b @ )",
    "(b @ ;c\n )",
    "()) (",
    "x (;;) @ y @",
    "1 @",
];
const GOOD: &[&str] = &[
    "a",
    "7",
    "(a b)",
    "x @ y",
    "()",
    "(())",
    "x @ (a)",
    "a @ b @ c",
    "(x @ 1 2)",
    "; c\n",
    "(; c ;)",
    "-1",
    "é",
    "0x80000000000000000000000000000000",
    // 2^127, which is read as -2^127
    "170141183460469231731687303715884105728",
];

pub fn source(rng: &mut Rng) -> Vec<u8> {
    match rng.below(4) {
        0 => deep(rng),
        1 => text::isle(rng),
        _ => faults(rng),
    }
}

fn faults(rng: &mut Rng) -> Vec<u8> {
    let mut text = String::new();
    let (parts, mut open) = (1 + rng.below(5), 0);
    for _ in 0..parts {
        if rng.one_in(4) {
            text.push('(');
            open += 1;
        }
        text.push_str(if rng.one_in(2) { rng.pick(FAULTS) } else { rng.pick(GOOD) });
        text.push(' ');
        if open > 0 && rng.one_in(2) {
            text.push(')');
            open -= 1;
        }
    }
    if rng.one_in(2) {
        text.extend(std::iter::repeat_n(')', open));
    }
    text.into_bytes()
}

const MIDDLES: &[&str] = &[
    "a",
    "1",
    "()",
    "x @ y",
    "x\x0c",
    "x 12ab @",
    "",
    ")",
    "@",
    "x @",
    "(a) (b)",
    "x @ ()",
    "12ab",
    "0x80000000000000000000000000000000",
];

/// Lists, bindings or both, open 62 to 67 deep, with something in the middle and closers for most.
fn deep(rng: &mut Rng) -> Vec<u8> {
    let (depth, mix) = (62 + rng.below(6), rng.below(4));
    let (mut text, mut lists) = (String::new(), 0);
    for _ in 0..depth {
        let list = match mix {
            0 => true,
            1 => false,
            _ => rng.one_in(2),
        };
        if list {
            text.push_str(rng.pick(&["(", "(", "(", "(a ", "(() ", "(1"]));
            lists += 1;
        } else {
            text.push_str(rng.pick(&["x @ ", "y@", "z @\n"]));
        }
        // a number directly before a name would swallow it
        text.push_str(if text.ends_with('1') { " " } else { "" });
    }
    text.push_str(rng.pick(MIDDLES));
    let closers = if rng.one_in(4) { rng.below(lists + 3) } else { lists };
    text.extend(std::iter::repeat_n(')', closers));
    text.push_str(rng.pick(&["", "", " b", "(c)", ")", "@", "\x0c"]));
    text.into_bytes()
}
