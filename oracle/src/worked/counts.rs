//! Prints with their count of what the fits test looks at, worked by hand from document 02: one for each list tested with the column not past the width.

use super::{Case, case, list};

const A: &[u8] = b"\x07\0\0\0\x01\0a";
const B: &[u8] = b"\x07\0\0\0\x01\0b";
const C: &[u8] = b"\x07\0\0\0\x01\0c";
const RULE: &[u8] = b"\x0a\0\0\0\x01\0rule";
const X_AT: &[u8] = b"\x07\0\0\0\x03\0x";

/// A table behind the byte for the layout, with room for any text.
fn q(width: u32, records: &[&[u8]], text: &str, looked: usize) -> Case {
    let hex: String = text.bytes().map(|byte| format!("{byte:02x}")).collect();
    let lines = format!("print {}\n{hex}\nlooked {looked}\nkept", text.len());
    case('Q', width, 4096, [&[0], &records.concat()[..]].concat(), lines)
}

pub fn cases() -> Vec<Case> {
    [counted(), empty(), not_counted()].concat()
}

fn counted() -> Vec<Case> {
    let (one, pair) = (&list(1, 3)[..], &list(2, 5)[..]);
    let rule = [&list(3, 14)[..], RULE, pair, A, B, C];
    let bound = [X_AT, one, A];
    let inside = [&list(2, 11)[..], A, &list(2, 7), B, one, C];
    let behind = [&list(2, 11)[..], A, X_AT, one, B];
    vec![
        // where the whole does not fit, `(a b)` is tested on its line
        q(14, &rule, "(rule (a b) c)\n", 1),
        q(13, &rule, "(rule\n    (a b)\n    c\n)\n", 1 + 1),
        q(12, &rule, "(rule\n    (a b)\n    c\n)\n", 1 + 1),
        q(8, &rule, "(rule\n    (a b)\n    c\n)\n", 1 + 1),
        q(4, &rule, "(rule\n    (a\n        b\n    )\n    c\n)\n", 1 + 1),
        q(3, &rule, "(rule\n    (a\n        b\n    )\n    c\n)\n", 1 + 1),
        q(u32::MAX, &rule, "(rule (a b) c)\n", 1),
        // from column 4 on, which is past width 3
        q(7, &bound, "x @ (a)\n", 1),
        q(6, &bound, "x @ (a\n)\n", 1),
        q(5, &bound, "x @ (a\n)\n", 1),
        q(4, &bound, "x @ (a\n)\n", 1),
        q(3, &bound, "x @ (a\n)\n", 0),
        // no test of a list inside one that fits
        q(11, &inside, "(a (b (c)))\n", 1),
        q(10, &inside, "(a\n    (b (c))\n)\n", 1 + 1),
        q(7, &inside, "(a\n    (b (c))\n)\n", 1 + 1),
        q(6, &inside, "(a\n    (b\n        (c)\n    )\n)\n", 1 + 1 + 1),
        // the list behind the binding from column 4 on
        q(7, &behind, "(a\n    x @ (b)\n)\n", 1 + 1),
        q(4, &behind, "(a\n    x @ (b\n    )\n)\n", 1 + 1),
        q(3, &behind, "(a\n    x @ (b\n    )\n)\n", 1),
        // each tree from column 0 on
        q(3, &[one, A, one, A], "(a)\n\n(a)\n", 1 + 1),
        q(2, &[one, A, B, one, A], "(a\n)\n\nb\n\n(a\n)\n", 1 + 1),
    ]
}

/// An empty list is tested too: past the width, where nothing is left, and where it fits.
fn empty() -> Vec<Case> {
    let (none, two) = (&list(0, 1)[..], &list(2, 5)[..]);
    vec![
        q(0, &[none], "()\n", 1),
        q(1, &[none], "()\n", 1),
        q(3, &[X_AT, none], "x @ ()\n", 0),
        q(4, &[X_AT, none], "x @ ()\n", 1),
        q(5, &[X_AT, none], "x @ ()\n", 1),
        // the first of the two stands at column 1
        q(0, &[two, none, none], "(()\n    ()\n)\n", 1 + 1),
        q(1, &[two, none, none], "(()\n    ()\n)\n", 1 + 1 + 1),
        q(4, &[two, none, none], "(()\n    ()\n)\n", 1 + 1 + 1),
        q(5, &[two, none, none], "(() ())\n", 1),
    ]
}

/// No list, no table, no byte for the layout; and a refused print reports nothing.
fn not_counted() -> Vec<Case> {
    let refused = |room, table: &[u8], refusal: &str| {
        case('Q', 9, room, [&[0], table].concat(), format!("{refusal}\nkept"))
    };
    vec![
        q(0, &[A, X_AT, B], "a\n\nx @ b\n", 0),
        q(9, &[], "", 0),
        case('Q', 9, 9, "", "print 0\n\nlooked 0\nkept"),
        refused(3, &[&list(1, 3), A].concat(), "refusal 18 at 4"),
        refused(9, &list(1, 3), "refusal 22 at 14"),
        refused(9, b"\x05\0\0\0\x01\0", "refusal 15 at 0"),
    ]
}
