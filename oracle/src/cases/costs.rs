//! Tables whose lists store wrong costs (document 02, 7/12), alone, together and beside other faults, and lists that store none.

mod rules;
mod ways;

use super::tables;
use crate::rng::Rng;
use crate::tree::{Tree, table_of};
use ways::WAYS;

/// A table and a width; the ways to spoil its costs come by turns.
pub fn table(turn: u64, rng: &mut Rng) -> (Vec<u8>, usize) {
    let mut made = Made::of((0..1 + rng.below(3)).map(|_| nest(rng)).collect());
    let (_, way) = WAYS[(turn % WAYS.len() as u64) as usize];
    way(&mut made, rng);
    (made.table, super::width(30, rng))
}

/// Stores other costs in some lists of a table, of any bytes: of those up to its first bad record, if there are any.
pub fn change(table: &mut [u8], rng: &mut Rng) {
    let mut lists = Vec::new();
    let mut at = 0;
    while let Some(head) = table.get(at..).and_then(|rest| rest.first_chunk::<6>()) {
        let len = u32::from_le_bytes([head[0], head[1], head[2], head[3]]) as usize;
        if len < 6 || len > table.len() - at {
            break;
        }
        if (head[4], head[5], len) == (5, 0, 14) {
            lists.push(at);
        }
        at += len;
    }
    if lists.is_empty() {
        return;
    }
    for _ in 0..1 + rng.below(3) {
        let at = rng.pick(&lists);
        let wrong = other(stored(table, at), rng);
        store(table, at, wrong);
    }
}

/// A list's record, the place past its last item, and how many items it has.
#[derive(Clone, Copy)]
struct List {
    at: usize,
    end: usize,
    items: usize,
}

/// A good table to be spoilt.
struct Made {
    trees: Vec<Tree>,
    table: Vec<u8>,
    /// In preorder; there is one at least.
    lists: Vec<List>,
}

impl Made {
    fn of(trees: Vec<Tree>) -> Made {
        let mut lists = Vec::new();
        trees.iter().fold(0, |at, tree| put_places(tree, at, &mut lists));
        Made { table: table_of(&trees), trees, lists }
    }

    /// Stores another cost than the right one.
    fn spoil(&mut self, list: List, rng: &mut Rng) {
        let wrong = other(stored(&self.table, list.at), rng);
        store(&mut self.table, list.at, wrong);
    }

    /// One of the pairs of lists of which this holds, the first one before the second in the table.
    fn pair(&self, is_one: fn(&List, &List) -> bool, rng: &mut Rng) -> Option<(List, List)> {
        let lists = self.lists.iter().enumerate();
        let pairs = lists.flat_map(|(at, one)| self.lists[at + 1..].iter().map(move |next| (*one, *next)));
        let pairs: Vec<_> = pairs.filter(|(one, next)| is_one(one, next)).collect();
        (!pairs.is_empty()).then(|| rng.pick(&pairs))
    }
}

/// Puts the lists of a tree that stands at a place, and gives the place past it.
fn put_places(tree: &Tree, at: usize, lists: &mut Vec<List>) -> usize {
    match tree {
        Tree::Symbol(bytes) => at + 6 + bytes.len(),
        Tree::Int(_) => at + 22,
        Tree::Binding(name, inner) => put_places(inner, at + 6 + name.len(), lists),
        Tree::List(items) => {
            let own = lists.len();
            lists.push(List { at, end: 0, items: items.len() });
            lists[own].end = items.iter().fold(at + 14, |at, item| put_places(item, at, lists));
            lists[own].end
        }
    }
}

fn stored(table: &[u8], at: usize) -> u32 {
    u32::from_le_bytes(table[at + 10..at + 14].try_into().expect("four bytes"))
}

fn store(table: &mut [u8], at: usize, cost: u32) {
    table[at + 10..at + 14].copy_from_slice(&cost.to_le_bytes());
}

/// A cost beside this one, one that differs in a single bit or byte, or the least or the greatest that can be stored.
fn other(cost: u32, rng: &mut Rng) -> u32 {
    let other = match rng.below(8) {
        0 | 1 => cost.wrapping_add(1),
        2 | 3 => cost.wrapping_sub(1),
        4 => cost ^ 1 << rng.below(32),
        5 => cost ^ (1 + rng.below(255) as u32) << rng.pick(&[0, 8, 16, 24]),
        6 => 0,
        _ => u32::MAX,
    };
    if other == cost { cost ^ 1 } else { other }
}

/// Lists in lists with empty ones among them, now and then as deep as they may be: what is in the middle has at most 7 lists and bindings open.
fn nest(rng: &mut Rng) -> Tree {
    let inner = list(rng.below(4), rng);
    let around = if rng.one_in(16) { 57 - rng.below(2) } else { rng.below(2) };
    (0..around).fold(inner, |inner, _| match rng.below(3) {
        0 => Tree::Binding(b"n".to_vec(), Box::new(inner)),
        1 => Tree::List(vec![tables::tree(0, rng), inner]),
        _ => Tree::List(vec![inner]),
    })
}

fn list(depth: usize, rng: &mut Rng) -> Tree {
    let item = |rng: &mut Rng| match rng.below(6) {
        0 => Tree::List(Vec::new()),
        1 if depth > 0 => Tree::Binding(b"name".to_vec(), Box::new(list(depth - 1, rng))),
        2 | 3 if depth > 0 => list(depth - 1, rng),
        _ => tables::tree(0, rng),
    };
    if depth == 0 && rng.one_in(2) {
        return Tree::List(Vec::new());
    }
    Tree::List((0..1 + rng.below(3)).map(|_| item(rng)).collect())
}

#[cfg(test)]
mod tests;
