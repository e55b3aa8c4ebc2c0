//! Document 01's cases that are worked by hand, and some like them and for document 02, with the answers by hand.
//! They come first in every comparison and sample, and the tests hold both sides against them.

// by their paths, for host/src names this file by its own
#[path = "worked/costs.rs"]
mod costs;
#[path = "worked/counts.rs"]
mod counts;
#[path = "worked/lowest.rs"]
mod lowest;
#[path = "worked/settings.rs"]
mod settings;
#[path = "worked/windows.rs"]
mod windows;

use crate::frame::Frame;

/// Op, `a`, `b`, bytes, and the lines but for the closing dot.
type Case = (char, u32, u32, Vec<u8>, String);

fn case(op: char, a: u32, b: u32, bytes: impl Into<Vec<u8>>, lines: impl Into<String>) -> Case {
    (op, a, b, bytes.into(), lines.into())
}

/// The record of a list of so many items, which stores this cost.
const fn list(items: u8, cost: u8) -> [u8; 14] {
    [14, 0, 0, 0, 5, 0, items, 0, 0, 0, cost, 0, 0, 0]
}

fn cases() -> Vec<Case> {
    let mut cases = lexing();
    cases.extend(calls());
    cases.extend(reading());
    cases.extend(printing());
    cases.extend(checking());
    cases.extend(windows::cases());
    cases.extend(counts::cases());
    cases.extend(lowest::cases());
    cases.extend(costs::cases());
    cases.extend(settings::cases());
    cases
}

fn lexing() -> Vec<Case> {
    let cases: &[(u32, &str, &str)] = &[
        (0, "", "end"),
        (0, "(;)", "refusal 4 at 0"),
        (0, "(;(;;);)x", "s 8 1\nend"),
        (0, "12ab", "refusal 6 at 2"),
        (0, "-", "refusal 5 at 0"),
        (0, "12xyz", "i 0 2 12\ns 2 3\nend"),
        (0, "1_0-2", "i 0 3 10\ni 3 2 -2\nend"),
        (0, "0x80000000000000000000000000000000", "i 0 34 -170141183460469231731687303715884105728\nend"),
        (0, "-0x80000000000000000000000000000000", "refusal 8 at 0"),
        (0, "-0xffffffffffffffffffffffffffffffff", "i 0 35 1\nend"),
        (0, "a\x0cb", "s 0 1\nrefusal 3 at 1"),
        (0, "340282366920938463463374607431768211455", "i 0 39 -1\nend"),
        (0, "340282366920938463463374607431768211456", "refusal 7 at 38"),
        (0, "0b", "refusal 5 at 0"),
        (0, "0xg", "refusal 5 at 0"),
        (0, "00x1", "i 0 2 0\ns 2 2\nend"),
        (0, "0_b1", "refusal 6 at 2"),
        (0, "-0b1_02f", "refusal 6 at 6"),
        (0, " -0x1_ffffffffffffffffffffffffffffffff_fg", "refusal 7 at 37"),
        (0, "-a", "refusal 6 at 1"),
        (0, "-0", "i 0 2 0\nend"),
        (0, "\x0b@(", "s 0 1\n@ 1\n( 2\nend"),
        (3, "a @ b", "s 4 1\nend"),
        (5, "a @ b", "end"),
        (6, "a @ b", "refusal 2 at 5"),
        (3, "(; a ;) b", "s 3 1\nend"),
        (6, "(; a ;) b", ") 6\ns 8 1\nend"),
    ];
    let mut all: Vec<Case> = Vec::new();
    for &(a, source, lines) in cases {
        all.push(case('L', a, 0, source, lines));
        if a == 0 {
            all.push(case('F', 1, 1, source, lines));
            all.push(case('f', 2, 3, source, lines));
        }
    }
    all
}

fn calls() -> Vec<Case> {
    vec![
        case('C', 0, 0, "", "feed 0 more\nclose end\nfeed 0 refusal 19 at 0\nclose end"),
        case(
            'C',
            1,
            1,
            "(a",
            "feed 1 more\nfeed 0 ( 0\nfeed 1 more\nclose s 1 1\nclose end\nfeed 0 refusal 19 at 2\nclose end",
        ),
        case(
            'c',
            1,
            1,
            "(a",
            "feed 1 more\nfeed 0 ( 0\nfeed 1 more\nclose s 1 1\nfeed 0 refusal 19 at 2\nclose end\nfeed 0 refusal 19 at 2\nclose end",
        ),
        case('C', 4, 1, "a)", "feed 1 s 0 1\nfeed 1 ) 1\nclose end\nfeed 0 refusal 19 at 2\nclose end"),
        case('C', 9, 1, " 12ab ", "feed 5 refusal 6 at 3\nfeed 0 refusal 6 at 3\nclose refusal 6 at 3"),
        case(
            'c',
            3,
            9,
            " 12ab",
            "feed 3 more\nfeed 2 more\nclose refusal 6 at 3\nfeed 0 refusal 6 at 3\nclose refusal 6 at 3",
        ),
        case(
            'C',
            2,
            1,
            "a\x0c",
            "feed 1 s 0 1\nfeed 0 refusal 3 at 1\nfeed 0 refusal 3 at 1\nclose refusal 3 at 1",
        ),
        case(
            'c',
            1,
            1,
            "(;",
            "feed 1 more\nfeed 1 more\nclose refusal 4 at 0\nfeed 0 refusal 4 at 0\nclose refusal 4 at 0",
        ),
    ]
}

fn reading() -> Vec<Case> {
    let nest = |open: &str, depth: usize, inside: &str, close: &str| {
        [open.repeat(depth), inside.to_string(), close.repeat(depth)].concat()
    };
    let cases: Vec<(u32, String, &str)> = vec![
        (28, "x @ (a)".into(), "table 28\n070000000300780e0000000500010000000300000007000000010061\nkept"),
        (27, "x @ (a)".into(), "refusal 14 at 28\nkept"),
        (0, "".into(), "table 0\n\nkept"),
        (9, "x @ )".into(), "refusal 12 at 4\nkept"),
        (9, "((a)".into(), "refusal 10 at 0\nkept"),
        (9, "a)".into(), "refusal 9 at 1\nkept"),
        (9, "x @ @".into(), "refusal 11 at 4\nkept"),
        (9, "x @ 12ab".into(), "refusal 6 at 6\nkept"),
        (9, "(a 0b1_2)".into(), "refusal 6 at 7\nkept"),
        (9, "(-0x100000000000000000000000000000000)".into(), "refusal 7 at 36\nkept"),
        (9, "(-0x80000000000000000000000000000000)".into(), "refusal 8 at 1\nkept"),
        (9, "x @ (;".into(), "refusal 4 at 4\nkept"),
        (9, "(x @ ;c".into(), "refusal 12 at 7\nkept"),
        (9, "(x @ 1".into(), "refusal 10 at 0\nkept"),
        (9, nest("(", 64, "", ")"), "refusal 14 at 896\nkept"),
        (9, nest("(", 65, "", ")"), "refusal 13 at 64\nkept"),
        (9, nest("x@", 65, "a", ""), "refusal 13 at 128\nkept"),
        (9, nest("(", 64, "a\x0c@", ")"), "refusal 3 at 65\nkept"),
        (9, nest("(", 64, "a @ (", ""), "refusal 13 at 64\nkept"),
    ];
    let mut all: Vec<Case> =
        cases.into_iter().map(|(a, source, lines)| case('R', a, 0, source, lines)).collect();
    // 64 lists, each but the innermost with one item and at a cost of 2 more than the next
    let around: String =
        (1..64).rev().map(|j| format!("0e000000050001000000{:02x}000000", 2 * j + 1)).collect();
    let lines = format!("table 896\n{around}0e00000005000000000001000000\nkept");
    all.push(case('R', 896, 0, nest("(", 64, "", ")"), lines));
    all
}

fn printing() -> Vec<Case> {
    let w = |a, source: &str, lines: &str| case('W', a, 0, source, lines);
    let p = |a, b, table: &str, lines: &str| case('P', a, b, table, lines);
    vec![
        w(14, "(rule (a b) c)", "text 15\n2872756c652028612062292063290a"),
        w(13, "(rule (a b) c)", "text 24\n2872756c650a2020202028612062290a20202020630a290a"),
        w(0, "()", "text 3\n28290a"),
        w(13, "(()()()(a b))", "text 17\n282829202829202829202861206229290a"),
        w(100, "", "text 0\n"),
        w(100, "a b", "text 5\n610a0a620a"),
        w(
            100,
            "(rule 1 (f x @ (g _)) 0x10)",
            "text 26\n2872756c65203120286620782040202867205f2929203136290a",
        ),
        w(100, "(a 12ab)", "refusal 6 at 5"),
        p(9, 2, "\x07\0\0\0\x01\0a", "print 2\n610a\nkept"),
        p(9, 1, "\x07\0\0\0\x01\0a", "refusal 18 at 2\nkept"),
        p(9, 9, "", "print 0\n\nkept"),
        p(9, 9, "\x06\0\0\0\x01\0", "refusal 16 at 0\nkept"),
        p(9, 9, "\x05\0\0\0\x01\0", "refusal 15 at 0\nkept"),
        p(9, 9, "\x07\0\0\0\x03\0x", "refusal 22 at 7\nkept"),
        p(9, 9, "\x07\0\0\0\x03\0x\x07", "refusal 15 at 7\nkept"),
        p(9, 9, "\x06\0\0\0\x06\0", "refusal 20 at 0\nkept"),
        p(9, 9, "\x05\0\0\0\x06\0", "refusal 15 at 0\nkept"),
        p(9, 9, "\x0b\0\0\0\x05\0\0\0\0\0\0", "refusal 21 at 0\nkept"),
        p(9, 9, "\x07\0\0\0\x03\0x\x07\0\0\0\x01\0;", "refusal 16 at 7\nkept"),
    ]
}

/// The table's check by itself; its number makes no difference.
fn checking() -> Vec<Case> {
    let k = |a, table: &[u8], lines: &str| case('K', a, 0, table, lines);
    vec![
        k(0, b"", "good"),
        k(0, &[&b"\x07\0\0\0\x03\0x"[..], &list(1, 3), b"\x07\0\0\0\x01\0a"].concat(), "good"),
        k(0, &b"\x07\0\0\0\x03\0n".repeat(65), "refusal 13 at 448"),
        k(0, &list(1, 2).repeat(65), "refusal 13 at 896"),
        k(1, b"\x06\0\0\0\x01\0", "refusal 16 at 0"),
        k(0, b"\x05\0\0\0\x01\0", "refusal 15 at 0"),
        k(1, b"\x07\0\0\0\x03\0x", "refusal 22 at 7"),
        k(0, b"\x07\0\0\0\x06\0x", "refusal 20 at 0"),
        k(0, b"\x08\0\0\0\x06\0x", "refusal 15 at 0"),
        k(1, b"\x07\0\0\0\x02\0x", "refusal 21 at 0"),
        // at depth 64: 20 and 21 before 13, and 22 where nothing is left
        k(
            0,
            &[&b"\x07\0\0\0\x03\0n".repeat(64)[..], b"\x0b\0\0\0\x05\0\0\0\0\0\0"].concat(),
            "refusal 21 at 448",
        ),
        k(
            0,
            &[&b"\x07\0\0\0\x03\0n".repeat(64)[..], b"\x0a\0\0\0\x04\0\0\0\0\0"].concat(),
            "refusal 20 at 448",
        ),
        k(0, &b"\x07\0\0\0\x03\0n".repeat(64), "refusal 22 at 448"),
    ]
}

fn frame(case: &Case) -> Frame {
    let (op, a, b, bytes, _) = case;
    Frame { op: *op as u8, a: *a, b: *b, bytes: bytes.clone() }
}

pub fn frames() -> Vec<Frame> {
    cases().iter().map(frame).collect()
}

#[cfg(test)]
mod tests {
    use super::{cases, frame, settings};
    use crate::answer::{Side, answer};
    use crate::crate_side::CrateSide;
    use crate::stand_in::StandIn;

    fn holds(side: &dyn Side) {
        for case in cases().into_iter().chain(settings::long()) {
            let mut got = Vec::new();
            answer(side, &frame(&case), &mut got);
            assert_eq!(String::from_utf8(got).unwrap(), format!("{}\n.\n", case.4), "{case:?}");
        }
    }

    #[test]
    fn the_crate_side_holds() {
        holds(&CrateSide);
    }

    #[test]
    fn the_stand_in_holds() {
        holds(&StandIn);
    }
}
