//! That the cases of tables meet 25 in every function that can give it, and tell it from what wrong checks of the costs answer.

mod checks;

use std::collections::BTreeMap;

use super::ways::WAYS;
use crate::answer::{Side, answer};
use crate::cases::Cases;
use crate::crate_side::CrateSide;
use crate::frame::Frame;
use crate::rng::Rng;
use crate::tree::{TABLE_LIMIT, Tree, cost, table_of};
use checks::{RIGHT, WRONG};

fn lines(side: &dyn Side, frame: &Frame) -> String {
    let mut out = Vec::new();
    answer(side, frame, &mut out);
    String::from_utf8(out).unwrap()
}

/// What an answer is to show, by the op, the lines, and those of a check that looks at no cost.
type Shown = fn(char, &str, &str) -> bool;
const SHOWN: &[(&str, Shown)] = &[
    ("25 by K", |op, lines, _| op == 'K' && lines.starts_with("refusal 25 ")),
    ("25 by P", |op, lines, _| op == 'P' && lines.starts_with("refusal 25 ")),
    ("25 by Q", |op, lines, _| op == 'Q' && lines.starts_with("refusal 25 ")),
    ("25 by V", |op, lines, _| op == 'V' && lines.starts_with("refusal 25 ")),
    ("25 and not 18", |_, lines, unseen| {
        lines.starts_with("refusal 25 ") && unseen.starts_with("refusal 18 ")
    }),
    ("25, and then another table is printed", |_, lines, _| {
        lines.starts_with("refusal 25 ") && lines.contains("\nwindow ")
    }),
    ("an empty window, and then 25", |_, lines, _| {
        lines.starts_with("window 0\n") && lines.contains("\nrefusal 25 ")
    }),
    ("20 by K", |op, lines, _| op == 'K' && lines.starts_with("refusal 20 ")),
    ("21 by K", |op, lines, _| op == 'K' && lines.starts_with("refusal 21 ")),
];

/// A stored sample has some of each; a wrong check that differs in few of its cases is told by the worked ones among them.
#[test]
fn cases_of_tables_tell_checks_apart() {
    for (sample, each, least) in [(false, 5_000, 20), (true, 400, 3)] {
        let cases = Cases::new(1, &[], sample).unwrap();
        let (mut differ, mut show) = ([0; WRONG.len()], [0; SHOWN.len()]);
        for op in *b"KPQV" {
            for number in 0..each {
                let frame = cases.frame(op, number);
                let right = lines(&CrateSide, &frame);
                assert_eq!(lines(&RIGHT, &frame), right, "case {number} of op {}", op as char);
                // of V a wrong check may take tables that no answer is decided for
                if op != b'V' {
                    for (count, (_, wrong)) in differ.iter_mut().zip(WRONG) {
                        *count += usize::from(lines(wrong, &frame) != right);
                    }
                }
                let unseen = if op == b'V' { String::new() } else { lines(&WRONG[0].1, &frame) };
                for (count, (_, shown)) in show.iter_mut().zip(SHOWN) {
                    *count += usize::from(shown(op as char, &right, &unseen));
                }
            }
        }
        let names = WRONG.iter().map(|(name, _)| name).chain(SHOWN.iter().map(|(name, _)| name));
        for (name, count) in names.zip(differ.iter().chain(&show)) {
            assert!(*count >= least, "{name}: {count} in {each} cases of each op");
        }
    }
}

/// The family by itself: what each way to spoil a table is answered with.
#[test]
fn every_way_is_refused_as_it_is_to_be() {
    let mut met = BTreeMap::<(&str, u32), usize>::new();
    for turn in 0..200 * WAYS.len() as u64 {
        let (table, _) = super::table(turn, &mut Rng::of(&[turn]));
        let number = CrateSide.check(&table).err().map_or(0, |refusal| refusal.number);
        *met.entry((WAYS[turn as usize % WAYS.len()].0, number)).or_default() += 1;
    }
    let of = |way, number| met.get(&(way, number)).copied().unwrap_or(0);
    for way in ["one", "outer", "inner", "outer and inner", "side by side", "empty", "all"] {
        assert_eq!(of(way, 25), 200, "{way}: {met:?}");
    }
    for (way, numbers) in [
        ("none", &[0][..]),
        ("exchanged", &[0, 25]),
        ("a byte", &[0, 25]),
        ("another count", &[22, 25]),
        ("another rule", &[0, 25]),
        ("other atoms", &[0, 25]),
        ("a fault later", &[13, 15, 16, 20, 21]),
        ("a fault before", &[13, 15, 16, 20, 21]),
        ("missing trees", &[22]),
        ("kind 4", &[20]),
        ("another length", &[21]),
    ] {
        assert!(numbers.iter().all(|number| of(way, *number) >= 5), "{way}: {met:?}");
    }
}

/// Why 4 bytes are enough: no tree costs twice the bytes of its records.
#[test]
fn a_cost_is_less_than_twice_the_bytes() {
    let dearest = Tree::List(vec![Tree::Int(-i128::MAX); 1000]);
    assert_eq!((cost(&dearest), table_of(std::slice::from_ref(&dearest)).len()), (41_001, 22_014));
    for turn in 0..2000 {
        let trees = [super::nest(&mut Rng::of(&[turn]))];
        assert!(cost(&trees[0]) < 2 * table_of(&trees).len());
    }
    const { assert!(2 * TABLE_LIMIT < 1 << 32) };
}
