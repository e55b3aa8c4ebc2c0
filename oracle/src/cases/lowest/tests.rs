//! That printed trees with -2^127 read back, and that but for its text the crate lays them out alike.

use super::Lowest;
use crate::answer::{Side, print, read};
use crate::crate_side::CrateSide;
use crate::printer::print_node;
use crate::rng::Rng;
use crate::stand_in::StandIn;
use crate::tree::{Tree, cost, int_text, table_of};

/// The tree with a symbol of the same text in the place of -2^127.
fn as_symbol(tree: &Tree) -> Tree {
    match tree {
        Tree::Int(i128::MIN) => Tree::Symbol(int_text(i128::MIN).into_bytes()),
        Tree::Binding(name, inner) => Tree::Binding(name.clone(), Box::new(as_symbol(inner))),
        Tree::List(items) => Tree::List(items.iter().map(as_symbol).collect()),
        other => other.clone(),
    }
}

#[test]
fn every_case_has_it_and_every_width_is_there() {
    let lowest = Lowest::new(true);
    assert_eq!(lowest.trees[0], Tree::Int(i128::MIN));
    let mut widths = Vec::new();
    for turn in 0..39 {
        // one in eight has a second tree
        let (trees, width) = lowest.nth(turn, &mut Rng::of(&[turn]));
        assert!(trees.contains(&Tree::Int(i128::MIN)));
        widths.push(width);
    }
    let all: Vec<usize> = (0..=cost(&lowest.trees[0]) + 3).chain([u32::MAX as usize]).collect();
    assert_eq!(widths, all);
    let (trees, width) = lowest.nth(lowest.count() - 1, &mut Rng::of(&[]));
    assert!(trees.contains(lowest.trees.last().unwrap()) && width == u32::MAX as usize);
}

/// `oracle/compare --long` runs 120,000 cases of this family by each op that prints.
#[test]
fn a_long_comparison_has_all() {
    let count = Lowest::new(false).count();
    assert!(count <= 120_000, "{count} cases");
}

#[test]
fn what_is_printed_reads_back() {
    let lowest = Lowest::new(true);
    for tree in &lowest.trees {
        let table = table_of(std::slice::from_ref(tree));
        for width in [0, cost(tree) - 1, cost(tree)] {
            for side in [&CrateSide as &dyn Side, &StandIn] {
                let text = print(side, &table, width, usize::MAX).expect("it prints").text;
                assert_eq!(read(side, &text, usize::MAX), Ok(table.clone()), "{tree:?} at width {width}");
            }
        }
    }
}

/// The spellings of a source are those of the table's trees.
#[test]
fn sources_have_the_same_trees() {
    let lowest = Lowest::new(true);
    for turn in (0..lowest.count()).step_by(7) {
        let rng = || Rng::of(&[turn]);
        let ((table, width), (source, same)) =
            (lowest.table(turn, &mut rng()), lowest.source(turn, &mut rng()));
        assert_eq!((read(&CrateSide, &source, usize::MAX), same), (Ok(table), width));
    }
}

#[test]
fn the_crate_lays_a_symbol_of_its_text_out_alike() {
    let lowest = Lowest::new(true);
    for tree in &lowest.trees {
        for width in 0..=cost(tree) + 3 {
            let printed = CrateSide.lay_out(std::slice::from_ref(tree), width);
            let symbol = CrateSide.lay_out(&[as_symbol(tree)], width);
            assert_eq!((printed.text, printed.looked), (symbol.text, symbol.looked), "{tree:?} at {width}");
        }
    }
}

/// The difference that document 02 wants: the crate's own text is one that its lexer refuses.
#[test]
fn the_crate_prints_a_decimal() {
    let mut text = Vec::new();
    print_node(&Tree::Int(i128::MIN), 100, &mut text).expect("a vector takes every byte");
    assert_eq!(text, i128::MIN.to_string().into_bytes());
    assert_eq!(CrateSide.lex(&text, 0).refusal.map(|refusal| refusal.number), Some(8));
}
