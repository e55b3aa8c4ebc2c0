//! Tables for the printer: every tree of few nodes, random trees, deep ones, and broken tables.

use crate::rng::Rng;
use crate::tree::{Tree, cost, put_list, put_record, table_of};

/// All trees up to a number of nodes, over one symbol, one integer and the empty list.
pub struct SmallTrees(Vec<Tree>);

impl SmallTrees {
    pub fn new(most: usize) -> SmallTrees {
        let leaves = vec![Tree::Symbol(b"ab".to_vec()), Tree::Int(-7), Tree::List(Vec::new())];
        SmallTrees(trees_of(leaves, most))
    }

    /// Each tree at every width from 0 to beyond its cost, and at the largest.
    pub fn nth(&self, turn: u64, rng: &mut Rng) -> (Vec<u8>, usize) {
        const WIDTHS: u64 = 24;
        let tree = &self.0[(turn / WIDTHS % self.0.len() as u64) as usize];
        let width = match (turn % WIDTHS) as usize {
            23 => u32::MAX as usize,
            22 => cost(tree),
            21 => cost(tree).saturating_sub(1),
            width => width,
        };
        let mut trees = vec![tree.clone()];
        if rng.one_in(8) {
            trees.push(self.0[rng.below(self.0.len())].clone());
        }
        (table_of(&trees), width)
    }
}

/// All trees up to a number of nodes over these leaves, of which the empty list may be one.
pub fn trees_of(leaves: Vec<Tree>, most: usize) -> Vec<Tree> {
    // by number of nodes: trees, and rows of trees
    let mut trees: Vec<Vec<Tree>> = vec![Vec::new(), leaves];
    let mut rows: Vec<Vec<Vec<Tree>>> = vec![vec![Vec::new()]];
    for nodes in 2..=most {
        rows.push(rows_of(nodes - 1, &trees, &rows));
        let bound = trees[nodes - 1].iter().map(|tree| Tree::Binding(b"x".to_vec(), Box::new(tree.clone())));
        let lists = rows[nodes - 1].iter().map(|row| Tree::List(row.clone()));
        let next = bound.chain(lists).collect();
        trees.push(next);
    }
    trees.concat()
}

fn rows_of(nodes: usize, trees: &[Vec<Tree>], rows: &[Vec<Vec<Tree>>]) -> Vec<Vec<Tree>> {
    let mut out = Vec::new();
    for first in 1..=nodes {
        for tree in &trees[first] {
            out.extend(rows[nodes - first].iter().map(|rest| {
                let mut row = vec![tree.clone()];
                row.extend(rest.iter().cloned());
                row
            }));
        }
    }
    out
}

const SYMBOLS: &[&str] = &[
    "a",
    "rule",
    "é",
    "x-1",
    "b12",
    "\u{b}",
    "has_type_of_some_length",
    "_",
    "日本",
    "+",
    "0",
    "",
    "a b",
    "-",
    "é;",
];
/// How many of them are symbols.
const GOOD: usize = 10;
/// The last, the one that is not printed as a decimal, is there twice.
const NUMBERS: &[i128] = &[
    0,
    1,
    -1,
    9,
    10,
    -10,
    1 << 64,
    (1 << 64) - 1,
    -(1 << 64),
    i128::MAX,
    -i128::MAX,
    1 << 63,
    1 << 126,
    i128::MIN,
    i128::MIN,
];

fn symbol(rng: &mut Rng) -> Vec<u8> {
    match rng.below(12) {
        0 => vec![b'w'; rng.below(40) + 1],
        1 => (0..1 + rng.below(4)).map(|_| 128 + rng.below(128) as u8).collect(),
        _ => rng.pick(&SYMBOLS[..GOOD]).as_bytes().to_vec(),
    }
}

fn integer(rng: &mut Rng) -> i128 {
    if rng.one_in(2) {
        return rng.pick(NUMBERS);
    }
    let bits = (rng.next() as u128) << 64 | rng.next() as u128;
    (bits as i128) >> rng.below(128)
}

pub fn tree(depth: usize, rng: &mut Rng) -> Tree {
    match rng.below(8) {
        0 | 1 => Tree::Symbol(symbol(rng)),
        2 => Tree::Int(integer(rng)),
        3 if depth > 0 => Tree::Binding(symbol(rng), Box::new(tree(depth - 1, rng))),
        _ if depth > 0 => Tree::List((0..rng.below(6)).map(|_| tree(depth - 1, rng)).collect()),
        _ => Tree::Symbol(symbol(rng)),
    }
}

/// Lists and bindings 62 to 66 deep around something.
fn deep(rng: &mut Rng) -> Tree {
    let (mut inner, mix) = (tree(rng.below(2), rng), rng.below(3));
    for _ in 0..62 + rng.below(5) {
        inner = if mix == 0 || mix == 1 && rng.one_in(2) {
            Tree::Binding(symbol(rng), Box::new(inner))
        } else {
            let mut items = vec![inner];
            (0..rng.below(3))
                .for_each(|_| items.insert(rng.below(items.len() + 1), Tree::Symbol(symbol(rng))));
            Tree::List(items)
        };
    }
    inner
}

/// A good table but for depth, with a width that tells something about it.
pub fn random(small: bool, rng: &mut Rng) -> (Vec<u8>, usize) {
    let mut trees: Vec<Tree> = (0..rng.below(4)).map(|_| tree(if small { 3 } else { 5 }, rng)).collect();
    if rng.one_in(if small { 40 } else { 12 }) {
        trees.push(deep(rng));
    }
    let costs = trees.first().map_or(0, cost);
    let width = match rng.below(8) {
        0 => costs,
        1 => costs.saturating_sub(1),
        2 => costs / 2,
        _ => super::width(60, rng),
    };
    (table_of(&trees), width)
}

/// A table with many records: a long list of atoms or of lists, far to the right at times, or many trees.
pub fn large(rng: &mut Rng) -> (Vec<u8>, usize) {
    let (most, depth) = rng.pick(&[(20_000, 0), (8_000, 1)]);
    let mut items = (0..rng.below(most)).map(|_| tree(depth, rng)).collect::<Vec<_>>();
    if rng.one_in(3) {
        return (table_of(&items), super::width(60, rng));
    }
    for _ in 0..rng.below(64) {
        items = vec![Tree::List(items)];
    }
    (table_of(&items), super::width(60, rng))
}

/// A table that mostly breaks a rule: a byte changed, cut off or put in, or a bad record among good ones.
pub fn broken(rng: &mut Rng) -> Vec<u8> {
    let mut table = table_of(&(0..1 + rng.below(3)).map(|_| tree(2, rng)).collect::<Vec<_>>());
    damage(&mut table, rng);
    table
}

/// What a byte is changed to: kinds, lengths and what is beside them, and bytes that end a symbol.
const DAMAGE: &[u8] =
    &[0, 1, 2, 3, 4, 5, 6, 7, 9, 10, 11, 13, 14, 15, 18, 21, 22, 23, 128, 255, b' ', b';', 12];

pub fn damage(table: &mut Vec<u8>, rng: &mut Rng) {
    match rng.below(6) {
        0 => table.truncate(rng.below(table.len() + 1)),
        1 | 2 if !table.is_empty() => {
            for _ in 0..1 + rng.below(2) {
                let at = rng.below(table.len());
                table[at] = rng.pick(DAMAGE);
            }
        }
        3 => table.insert(rng.below(table.len() + 1), rng.below(8) as u8),
        _ => {
            let mut more = Vec::new();
            for _ in 0..1 + rng.below(2) {
                bad_record(&mut more, rng);
            }
            if rng.one_in(2) { table.extend(more) } else { table.splice(0..0, more).for_each(drop) }
        }
    }
}

fn bad_record(table: &mut Vec<u8>, rng: &mut Rng) {
    match rng.below(8) {
        0 => put_record(table, rng.below(8) as u16, b"a"),
        1 => put_list(table, rng.below(4) as u32, rng.below(8) as u32),
        2 => put_list(table, u32::MAX, rng.pick(&[0, 1, u32::MAX])),
        3 => put_record(table, 1 + 2 * rng.below(2) as u16, rng.pick(&SYMBOLS[GOOD..]).as_bytes()),
        4 => put_record(table, 2, &vec![0; 15 + rng.below(3)]),
        5 => {
            table.extend((rng.below(8) as u32).to_le_bytes());
            table.extend([1 + rng.below(5) as u8, 0]);
        }
        // an empty list of kind 4, or of a length that is not a list's
        6 => put_record(table, rng.pick(&[4, 5, 5]), &vec![0; rng.pick(&[0, 4, 7, 9, 12])]),
        _ => {
            // names enough for 65 bindings, with or without a tree, and at times one that is no symbol
            for _ in 0..63 + rng.below(3) {
                put_record(table, 3, b"n");
            }
            let payload = rng.pick(&["a", " ", "", "\0\0\0\0", "\0\0\0\0\x01\0\0\0"]);
            put_record(table, 1 + rng.below(5) as u16, payload.as_bytes());
        }
    }
}
