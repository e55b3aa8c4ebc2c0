//! -2^127, printed as `0x8` and 31 zeros at a cost of 34, worked by hand from document 02.

use super::{Case, case, list};
use crate::windows::Calls;

const TEXT: &str = "0x80000000000000000000000000000000";
const LOWEST: &[u8] = b"\x16\0\0\0\x02\0\0\0\0\0\0\0\0\0\0\0\0\0\0\0\0\x80";
/// The integer above it, whose text is a decimal of 40 bytes.
const ABOVE: &[u8] = b"\x16\0\0\0\x02\0\x01\0\0\0\0\0\0\0\0\0\0\0\0\0\0\x80";
const A: &[u8] = b"\x07\0\0\0\x01\0a";
const X_AT: &[u8] = b"\x07\0\0\0\x03\0x";
/// The records of `(L)`, of `(a L)` and `(L a)`, and of `(a L a)`, where L is the integer.
const ONE: &[u8] = &list(1, 2 + 34);
const TWO: &[u8] = &list(2, 3 + 1 + 34);
const THREE: &[u8] = &list(3, 4 + 1 + 34 + 1);
/// Of `(x @ L)`, `(L L)`, `((a L) a)` and `(a H)`, where H is the integer above.
const BOUND: &[u8] = &list(1, 2 + 4 + 34);
const BOTH: &[u8] = &list(2, 3 + 34 + 34);
const AROUND: &[u8] = &list(2, 3 + 38 + 1);
const OTHER: &[u8] = &list(2, 3 + 1 + 40);

pub fn cases() -> Vec<Case> {
    [read(), alone(), laid_out(), decided_by_34(), in_windows(), checked()].concat()
}

/// A text with `L` for the integer's own.
fn full(text: &str) -> String {
    text.replace('L', TEXT)
}

fn hex(bytes: &[u8]) -> String {
    bytes.iter().map(|byte| format!("{byte:02x}")).collect()
}

/// By ops P and Q: the text, and how many costs the fits test looks at.
fn printed(width: u32, records: &[&[u8]], text: &str, looked: usize) -> Vec<Case> {
    let (table, text) = (records.concat(), full(text));
    let lines = format!("print {}\n{}\n", text.len(), hex(text.as_bytes()));
    vec![
        case('P', width, text.len() as u32, table.clone(), format!("{lines}kept")),
        case('Q', width, 4096, [&[0], &table[..]].concat(), format!("{lines}looked {looked}\nkept")),
    ]
}

/// Each spelling is read as it, and what is printed is fed back as the same token.
fn read() -> Vec<Case> {
    let table = format!("table 22\n{}\nkept", hex(LOWEST));
    let spellings =
        [TEXT, "170141183460469231731687303715884105728", "0o2000000000000000000000000000000000000000000"];
    let mut cases: Vec<Case> =
        spellings.iter().map(|source| case('R', 22, 0, *source, table.clone())).collect();
    let source = full("(x @ L\n    L\n)\n");
    let lines = format!("( 0\ns 1 1\n@ 3\ni 5 34 {0}\ni 44 34 {0}\n) 79\nend", i128::MIN);
    cases.push(case('L', 0, 0, source.clone(), lines.clone()));
    cases.push(case('F', 1, 1, source.clone(), lines.clone()));
    cases.push(case('f', 6, 33, source, lines));
    cases
}

/// No list, so that no width makes a difference; a room of one byte less is refused.
fn alone() -> Vec<Case> {
    let text = full("L\n");
    let mut cases = vec![case('P', 100, 34, LOWEST, "refusal 18 at 35\nkept")];
    for width in [0, 33, 34, 35, 100] {
        cases.push(case('W', width, 0, TEXT, format!("text 35\n{}", hex(text.as_bytes()))));
        cases.extend(printed(width, &[LOWEST], "L\n", 0));
        cases.extend(printed(width, &[X_AT, LOWEST], "x @ L\n", 0));
    }
    cases
}

/// First, in the middle and last in lists, behind a binding, and beside other trees.
fn laid_out() -> Vec<Case> {
    vec![
        printed(36, &[ONE, LOWEST], "(L)\n", 1),
        printed(35, &[ONE, LOWEST], "(L\n)\n", 1),
        printed(1, &[ONE, LOWEST], "(L\n)\n", 1),
        printed(38, &[TWO, A, LOWEST], "(a L)\n", 1),
        printed(37, &[TWO, A, LOWEST], "(a\n    L\n)\n", 1),
        printed(3, &[TWO, A, LOWEST], "(a\n    L\n)\n", 1),
        printed(38, &[TWO, LOWEST, A], "(L a)\n", 1),
        printed(37, &[TWO, LOWEST, A], "(L\n    a\n)\n", 1),
        printed(36, &[TWO, LOWEST, A], "(L\n    a\n)\n", 1),
        printed(40, &[THREE, A, LOWEST, A], "(a L a)\n", 1),
        printed(39, &[THREE, A, LOWEST, A], "(a\n    L\n    a\n)\n", 1),
        printed(40, &[BOUND, X_AT, LOWEST], "(x @ L)\n", 1),
        printed(39, &[BOUND, X_AT, LOWEST], "(x @ L\n)\n", 1),
        // from column 4 on
        printed(40, &[X_AT, ONE, LOWEST], "x @ (L)\n", 1),
        printed(39, &[X_AT, ONE, LOWEST], "x @ (L\n)\n", 1),
        printed(3, &[X_AT, ONE, LOWEST], "x @ (L\n)\n", 0),
        printed(71, &[BOTH, LOWEST, LOWEST], "(L L)\n", 1),
        printed(70, &[BOTH, LOWEST, LOWEST], "(L\n    L\n)\n", 1),
        printed(9, &[A, LOWEST, A], "a\n\nL\n\na\n", 0),
    ]
    .concat()
}

/// Where a cost of 40, that of the decimal, would break a list or not be the one to store; and the integer above, which has it.
fn decided_by_34() -> Vec<Case> {
    let above = format!("(a {})\n", -i128::MAX);
    let broken = format!("(a\n    {}\n)\n", -i128::MAX);
    let nested = &[AROUND, TWO, A, LOWEST, A][..];
    let wrong =
        |list: &[u8], integer: &[u8]| vec![case('K', 0, 0, [list, A, integer].concat(), "refusal 25 at 0")];
    [
        printed(43, &[TWO, A, LOWEST], "(a L)\n", 1),
        printed(43, &[OTHER, A, ABOVE], &broken, 1),
        printed(44, &[OTHER, A, ABOVE], &above, 1),
        wrong(OTHER, LOWEST),
        wrong(TWO, ABOVE),
        // the inner from column 1 on
        printed(42, nested, "((a L) a)\n", 1),
        printed(41, nested, "((a L)\n    a\n)\n", 1 + 1),
        printed(39, nested, "((a L)\n    a\n)\n", 1 + 1),
        printed(38, nested, "((a\n    L\n)\n    a\n)\n", 1 + 1),
    ]
    .concat()
}

/// Windows that end in it, at its first and its last byte, and around it.
fn in_windows() -> Vec<Case> {
    let fill = |width: u32, lengths: &[u32], records: &[&[u8]], text: &str, looked: usize| {
        let (text, mut given, mut lines) = (full(text).into_bytes(), 0, Vec::new());
        for length in lengths {
            let end = text.len().min(given + *length as usize);
            lines.push(if given == text.len() {
                format!("end\nlooked {looked}\nkept")
            } else {
                format!("window {}\n{}\nkept", end - given, hex(&text[given..end]))
            });
            given = end;
        }
        let calls = Calls { lengths: lengths.to_vec(), first: lengths.len(), x: records.concat(), y: vec![] };
        case('V', width, 0, calls.bytes(), lines.join("\n"))
    };
    let two = &[TWO, A, LOWEST][..];
    vec![
        fill(0, &[35, 1], &[LOWEST], "L\n", 0),
        fill(100, &[34, 1, 1], &[LOWEST], "L\n", 0),
        fill(33, &[33, 0, 2, 0, 9], &[LOWEST], "L\n", 0),
        fill(34, &[1, 1, 1, 31, 1, 1], &[LOWEST], "L\n", 0),
        fill(35, &[0, 2, 16, 17, 1], &[LOWEST], "L\n", 0),
        fill(100, &[3, 2, 34, 1], &[X_AT, LOWEST], "x @ L\n", 0),
        fill(38, &[3, 34, 2, 1], two, "(a L)\n", 1),
        fill(43, &[512, 512], two, "(a L)\n", 1),
        fill(37, &[10, 30, 10, 1], two, "(a\n    L\n)\n", 1),
        fill(41, &[4, 33, 40, 1], &[AROUND, TWO, A, LOWEST, A], "((a L)\n    a\n)\n", 1 + 1),
        // the first call checks the whole table, and finds nothing to refuse
        fill(9, &[0, 1, 512, 9], &[A, &list(2, 5), A, A, LOWEST], "a\n\n(a a)\n\nL\n", 1),
    ]
}

/// Op K takes no notice of its number.
fn checked() -> Vec<Case> {
    let k = |a, table: &[u8], lines: &str| case('K', a, 0, table, lines);
    let cut = &LOWEST[..21];
    vec![
        k(0, LOWEST, "good"),
        k(1, LOWEST, "good"),
        k(1, &[&list(2, 3 + 1 + 4 + 34), A, X_AT, LOWEST].concat(), "good"),
        k(1, &[TWO, A, X_AT, cut].concat(), "refusal 15 at 28"),
        k(0, &[LOWEST, ONE].concat(), "refusal 22 at 36"),
    ]
}
