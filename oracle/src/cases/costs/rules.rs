//! Costs by rules that are not document 01's, and costs that were right before something in the table changed.

use super::Made;
use crate::rng::Rng;
use crate::tree::{Tree, cost, in_4_bytes, int_text, put_list, put_record, put_tree};

/// What an empty list, -2^127, a binding beside its name, and a list beside its items cost.
struct Rule {
    empty: usize,
    lowest: usize,
    bound: usize,
    own: usize,
}

const RIGHT: Rule = Rule { empty: 1, lowest: 34, bound: 3, own: 1 };

/// As it is printed, as a decimal, without ` @ ` or its blanks, without any parenthesis and with both.
const RULES: &[Rule] = &[
    Rule { empty: 2, ..RIGHT },
    Rule { lowest: 40, ..RIGHT },
    Rule { bound: 0, ..RIGHT },
    Rule { bound: 1, ..RIGHT },
    Rule { own: 0, ..RIGHT },
    Rule { own: 2, ..RIGHT },
];

fn cost_by(rule: &Rule, tree: &Tree) -> usize {
    match tree {
        Tree::Symbol(bytes) => bytes.len(),
        Tree::Int(i128::MIN) => rule.lowest,
        Tree::Int(value) => int_text(*value).len(),
        Tree::Binding(name, inner) => name.len() + rule.bound + cost_by(rule, inner),
        Tree::List(items) if items.is_empty() => rule.empty,
        Tree::List(items) => {
            items.iter().map(|item| cost_by(rule, item)).sum::<usize>() + items.len() + rule.own
        }
    }
}

/// A tree's records with the costs that `cost` tells of the lists of `from`, a tree of the same shape.
fn put_costs_of(table: &mut Vec<u8>, tree: &Tree, from: &Tree, cost: &dyn Fn(&Tree) -> usize) {
    match (tree, from) {
        (Tree::Binding(name, inner), Tree::Binding(_, from)) => {
            put_record(table, 3, name);
            put_costs_of(table, inner, from, cost);
        }
        (Tree::List(items), Tree::List(others)) => {
            put_list(table, items.len() as u32, in_4_bytes(cost(from)));
            items.iter().zip(others).for_each(|(item, from)| put_costs_of(table, item, from, cost));
        }
        _ => put_tree(table, tree),
    }
}

/// All costs by another rule; they are right where the trees hold nothing that it judges otherwise.
pub fn other_rule(made: &mut Made, rng: &mut Rng) {
    let rule = &RULES[rng.below(RULES.len())];
    made.table.clear();
    for tree in &made.trees {
        put_costs_of(&mut made.table, tree, tree, &|tree| cost_by(rule, tree));
    }
}

/// Atoms are others than when the costs were stored: longer, shorter or as long.
pub fn other_atoms(made: &mut Made, rng: &mut Rng) {
    made.table.clear();
    for tree in &made.trees {
        put_costs_of(&mut made.table, &changed(tree, rng), tree, &cost);
    }
}

fn changed(tree: &Tree, rng: &mut Rng) -> Tree {
    match tree {
        Tree::Binding(name, inner) => Tree::Binding(name.clone(), Box::new(changed(inner, rng))),
        Tree::List(items) => Tree::List(items.iter().map(|item| changed(item, rng)).collect()),
        atom if !rng.one_in(4) => atom.clone(),
        Tree::Symbol(bytes) => Tree::Symbol(vec![b'c'; 1 + rng.below(bytes.len() + 1)]),
        Tree::Int(value) => Tree::Int(rng.pick(&[value.wrapping_neg(), value / 10, i128::MIN, value ^ 1])),
    }
}
