//! Costs kept with lists, worked by hand from document 02, 7/12: as the reader writes them, as a check finds them wrong, and as the fits test counts them.

use super::{Case, case, list};
use crate::windows::Calls;

const A: &[u8] = b"\x07\0\0\0\x01\0a";
const B: &[u8] = b"\x07\0\0\0\x01\0b";
const C: &[u8] = b"\x07\0\0\0\x01\0c";
const X_AT: &[u8] = b"\x07\0\0\0\x03\0x";
const NO_SYMBOL: &[u8] = b"\x06\0\0\0\x01\0";
/// The record of `()` as it is, and with a cost that is wrong.
const EMPTY: &[u8] = &list(0, 1);
const WRONG: &[u8] = &list(0, 2);

fn hex(bytes: &[u8]) -> String {
    bytes.iter().map(|byte| format!("{byte:02x}")).collect()
}

pub fn cases() -> Vec<Case> {
    let mut cases = written();
    for (table, answer) in [places(), after_other_faults(), shapes()].concat() {
        cases.push(case('K', 0, 0, &table[..], &answer[..]));
        cases.extend(refused(&table, &answer));
    }
    // of these the plain print is enough
    for (table, answer) in [bytes_of_a_cost(), kinds()].concat() {
        cases.push(case('K', 0, 0, &table[..], &answer[..]));
        cases.extend(refused(&table, &answer).into_iter().next());
    }
    [cases, before_18(), counted(), in_windows()].concat()
}

/// A list with a symbol of 300 letters, at a cost of 302, which is 46 and 256.
fn long_list() -> Vec<u8> {
    [&list(1, 46)[..11], &[1, 0, 0], b"\x32\x01\0\0\x01\0", &[b'a'; 300]].concat()
}

/// A source, and the records that it is read as.
fn written() -> Vec<Case> {
    let ten = [&b"\x16\0\0\0\x02\0\x0a"[..], &[0; 15]].concat();
    let minus_one = [&b"\x16\0\0\0\x02\0"[..], &[255; 16]].concat();
    let sources: &[(&str, &[&[u8]])] = &[
        ("x @ (a)", &[X_AT, &list(1, 3), A]),
        ("()", &[EMPTY]),
        ("(() ())", &[&list(2, 5), EMPTY, EMPTY]),
        ("(a (b (c)))", &[&list(2, 11), A, &list(2, 7), B, &list(1, 3), C]),
        // by the text that is printed and not by the spelling: 2 for `10` and for `-1`
        ("(0x_0a -0x_1)", &[&list(2, 3 + 2 + 2), &ten, &minus_one]),
        ("(x @ x @ 0b1010)", &[&list(1, 2 + 4 + 4 + 2), X_AT, X_AT, &ten]),
        ("(a) b (;c;) x @ ((b))", &[&list(1, 3), A, B, X_AT, &list(1, 5), &list(1, 3), B]),
        (&format!("({})", "a".repeat(300)), &[&long_list()]),
    ];
    let read = sources.iter().map(|(source, records)| {
        let table = records.concat();
        case('R', 400, 0, *source, format!("table {}\n{}\nkept", table.len(), hex(&table)))
    });
    read.collect()
}

/// A table and the check's answer.
type Judged = (Vec<u8>, String);

fn judged(records: &[&[u8]], answer: &str) -> Judged {
    (records.concat(), answer.to_string())
}

fn wrong(at: usize, records: &[&[u8]]) -> Judged {
    judged(records, &format!("refusal 25 at {at}"))
}

/// The same answer by a print, by one that is counted, and by the first call of one through windows, where it is a refusal; and 25 by a print with
/// no room too.
fn refused(table: &[u8], answer: &str) -> Vec<Case> {
    if answer == "good" {
        return Vec::new();
    }
    let kept = format!("{answer}\nkept");
    let calls = Calls { lengths: vec![0, 9], first: 2, x: table.to_vec(), y: EMPTY.to_vec() };
    let mut cases = vec![
        case('P', 9, 99, table, kept.clone()),
        case('Q', 9, 99, [&[0], table].concat(), kept.clone()),
        case('V', 9, 0, calls.bytes(), format!("{kept}\n{kept}")),
    ];
    if answer.starts_with("refusal 25") {
        cases.push(case('P', 9, 0, table, kept));
    }
    cases
}

/// The first wrong one in preorder: a list comes before those in it.
fn places() -> Vec<Judged> {
    let (one, double) = (&list(1, 3)[..], &list(1, 5)[..]);
    vec![
        judged(&[double, one, A], "good"),
        wrong(0, &[&list(1, 4), one, A]),
        wrong(14, &[double, &list(1, 4), A]),
        wrong(0, &[&list(1, 9), &list(1, 4), A]),
        // the outer's would be right if the inner's were
        wrong(0, &[&list(1, 6), &list(1, 4), A]),
        wrong(14, &[&list(2, 5), WRONG, WRONG]),
        wrong(28, &[&list(2, 5), EMPTY, WRONG]),
        wrong(14, &[EMPTY, WRONG, WRONG]),
        // what stands before a list on its line is none of its cost
        wrong(7, &[X_AT, &list(1, 7), A]),
        wrong(21, &[A, X_AT, A, &list(1, 2), A]),
        // at the greatest depth
        wrong(441, &[&X_AT.repeat(63), WRONG]),
        judged(&[&X_AT.repeat(64), WRONG], "refusal 13 at 448"),
    ]
}

/// All four bytes count, the lowest first.
fn bytes_of_a_cost() -> Vec<Judged> {
    let of = |cost: u32| [&list(0, 0)[..10], &cost.to_le_bytes()].concat();
    let costs = [0, 2, 0x101, 0x1_0001, 0x100_0001, 0x100_0000, 0x8000_0001, u32::MAX];
    costs.iter().map(|cost| wrong(0, &[&of(*cost)])).chain([judged(&[&of(1)], "good")]).collect()
}

/// Every record's own fault comes first, wherever it stands, and so do missing trees.
fn after_other_faults() -> Vec<Judged> {
    vec![
        judged(&[WRONG, &[7]], "refusal 15 at 14"),
        judged(&[WRONG, b"\x0a\0\0\0\x04\0\0\0\0\0"], "refusal 20 at 14"),
        judged(&[WRONG, b"\x0a\0\0\0\x05\0\0\0\0\0"], "refusal 21 at 14"),
        judged(&[WRONG, &X_AT.repeat(65)], "refusal 13 at 462"),
        judged(&[WRONG, A, NO_SYMBOL], "refusal 16 at 21"),
        judged(&[&list(2, 9), WRONG, NO_SYMBOL], "refusal 16 at 28"),
        judged(&[NO_SYMBOL, WRONG], "refusal 16 at 0"),
        judged(&[WRONG, X_AT], "refusal 22 at 21"),
        judged(&[WRONG, &list(1, 3)], "refusal 22 at 28"),
        judged(&[&list(2, 9), A], "refusal 22 at 21"),
    ]
}

/// Kind 4 is unknown whatever its length, and kind 5 has no other length than 14.
fn kinds() -> Vec<Judged> {
    let record = |len: u8, kind: u8| [vec![len, 0, 0, 0, kind, 0], vec![0; len as usize - 6]].concat();
    let of_5 = [6, 7, 9, 10, 11, 13, 15, 18, 22].map(|len| judged(&[&record(len, 5)], "refusal 21 at 0"));
    let of_4 = [6, 10, 14].map(|len| judged(&[&record(len, 4)], "refusal 20 at 0"));
    let others = vec![
        // document 01's table of `x @ (a)`
        judged(&[X_AT, b"\x0a\0\0\0\x04\0\x01\0\0\0", A], "refusal 20 at 7"),
        // kind 261, whose low byte is a list's
        judged(&[b"\x0e\0\0\0\x05\x01\0\0\0\0\x01\0\0\0"], "refusal 20 at 0"),
        judged(&[&EMPTY[..13]], "refusal 15 at 0"),
        judged(&[b"\x05\0\0\0\x05\0"], "refusal 15 at 0"),
    ];
    [of_5.to_vec(), of_4.to_vec(), others].concat()
}

/// It is the cost of what follows in the table that counts, however the costs came to be there.
fn shapes() -> Vec<Judged> {
    vec![
        judged(&[&list(2, 5), A, B], "good"),
        wrong(0, &[&list(1, 5), A, B]),
        wrong(0, &[&list(2, 3), A, B]),
        // `(a (b))`, and with `b` on its own behind it
        judged(&[&list(2, 7), A, &list(1, 3), B], "good"),
        wrong(21, &[&list(2, 5), A, &list(0, 3), B]),
        wrong(0, &[&list(2, 7), A, EMPTY, B]),
    ]
}

/// What a print with no room is refused with, where the cost is wrong and where it is right.
fn before_18() -> Vec<Case> {
    let print = |room, table: &[&[u8]], answer: &str| {
        case('P', 9, room, table.concat(), format!("refusal {answer}\nkept"))
    };
    vec![
        print(3, &[&list(1, 2), A], "25 at 0"),
        print(3, &[&list(1, 3), A], "18 at 4"),
        print(0, &[A, WRONG], "25 at 7"),
        print(0, &[A, EMPTY], "18 at 6"),
    ]
}

/// The text and the count of lists in lists: one for each that is tested with the column not past the width.
fn counted() -> Vec<Case> {
    let q = |width, records: &[&[u8]], text: &str, looked: usize| {
        let lines = format!("print {}\n{}\nlooked {looked}\nkept", text.len(), hex(text.as_bytes()));
        case('Q', width, 400, [&[0], &records.concat()[..]].concat(), lines)
    };
    // where the low byte of the cost alone would fit, and where all of it does
    let long = [45, 46, 255, 256, 301, 302, u32::MAX].map(|width| {
        let close = if width < 302 { "\n)\n" } else { ")\n" };
        q(width, &[&long_list()], &format!("({}{close}", "a".repeat(300)), 1)
    });
    let one = &list(1, 3)[..];
    // `(((a)))`: at columns 0, 1 and 2
    let first = [&list(1, 7)[..], &list(1, 5), one, A];
    // `(a (b (c) a) (b))`: all on lines of their own
    let further = [&list(3, 17)[..], A, &list(3, 9), B, one, C, A, one, B];
    let nested = vec![
        q(7, &first, "(((a)))\n", 1),
        q(6, &first, "(((a))\n)\n", 2),
        q(5, &first, "(((a)\n)\n)\n", 3),
        q(4, &first, "(((a\n)\n)\n)\n", 3),
        q(2, &first, "(((a\n)\n)\n)\n", 3),
        q(1, &first, "(((a\n)\n)\n)\n", 2),
        q(0, &first, "(((a\n)\n)\n)\n", 1),
        q(17, &further, "(a (b (c) a) (b))\n", 1),
        q(16, &further, "(a\n    (b (c) a)\n    (b)\n)\n", 3),
        q(8, &further, "(a\n    (b\n        (c)\n        a\n    )\n    (b)\n)\n", 4),
        q(0, &further, "(a\n    (b\n        (c\n        )\n        a\n    )\n    (b\n    )\n)\n", 4),
        // an empty list, tested and past the width
        q(0, &[EMPTY], "()\n", 1),
        q(3, &[X_AT, EMPTY], "x @ ()\n", 0),
    ];
    [nested, long.to_vec()].concat()
}

/// A wrong cost before anything was given, and one that is wrong from some call on, where the answer is left open.
fn in_windows() -> Vec<Case> {
    let calls = |lengths: &[u32], first, x: &[u8], y: &[u8]| {
        Calls { lengths: lengths.to_vec(), first, x: x.to_vec(), y: y.to_vec() }.bytes()
    };
    let of = |cost: u8| [&list(2, cost)[..], A, B].concat();
    let greatest = [&list(2, 0)[..10], &[255; 4], A, B].concat();
    let open = |lengths: &[u32], x: &[u8], y: &[u8]| {
        case('v', 5, 5, calls(lengths, 1, x, y), vec!["inside"; lengths.len()].join("\n"))
    };
    let given = "window 6\n28612062290a\nkept\nend\nlooked 1\nkept";
    vec![
        case('V', 5, 0, calls(&[9, 9, 9], 1, &of(4), &of(5)), format!("refusal 25 at 0\nkept\n{given}")),
        case('V', 5, 0, calls(&[0, 9], 1, &of(5), &of(4)), "window 0\n\nkept\nrefusal 25 at 0\nkept"),
        open(&[0, 9, 9], &of(5), &of(6)),
        open(&[1, 9, 9], &of(5), &of(6)),
        open(&[1, 9, 9], &[X_AT, &of(5)].concat(), &[X_AT, &of(0)].concat()),
        open(&[1, 9, 9], &[X_AT, &of(5)].concat(), &[X_AT, &greatest[..]].concat()),
        open(&[6, 9, 9], &of(5), &greatest),
    ]
}
