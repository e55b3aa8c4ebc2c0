//! -2^127, the one integer that is not printed as a decimal (document 02, 6/12): every small tree with it at any leaf, at every width
//! up to beyond the tree's cost, and at the largest.

use super::tables::trees_of;
use crate::rng::Rng;
use crate::tree::{Tree, cost, int_text, table_of};

/// Spellings that are read as it, beside the one that is printed.
const SPELLINGS: &[&str] = &[
    "0X8000_0000_0000_0000_0000_0000_0000_0000",
    "0x_0080000000000000000000000000000000",
    "170141183460469231731687303715884105728",
    "0o2000000000000000000000000000000000000000000",
];

pub struct Lowest {
    trees: Vec<Tree>,
    /// How many cases the trees up to and with each have.
    ends: Vec<u64>,
}

impl Lowest {
    /// The fewer other leaves there are, the more nodes.
    pub fn new(small: bool) -> Lowest {
        let (lowest, symbol, empty) =
            (Tree::Int(i128::MIN), Tree::Symbol(b"a".to_vec()), Tree::List(Vec::new()));
        // those around 0 and at the ends of the range, and one whose low half is 0 too
        let others = [0, -1, i128::MAX, -i128::MAX, -(1 << 64)].map(Tree::Int);
        let few = vec![lowest, symbol];
        let some = [few.clone(), vec![empty]].concat();
        let many = [some.clone(), others.to_vec()].concat();
        let less = usize::from(small);
        let mut trees: Vec<Tree> = Vec::new();
        for (leaves, most) in [(many, 4), (some, 5), (few, 6)] {
            trees.extend(trees_of(leaves, most - less).into_iter().filter(has_lowest));
        }
        // the cheap ones first; what comes twice is then side by side
        trees.sort_by_cached_key(|tree| (cost(tree), table_of(std::slice::from_ref(tree))));
        trees.dedup();
        let ends = trees.iter().scan(0, |end, tree| {
            *end += widths(tree);
            Some(*end)
        });
        Lowest { ends: ends.collect(), trees }
    }

    /// How many cases there are until all have been through.
    pub fn count(&self) -> u64 {
        *self.ends.last().expect("there are trees")
    }

    /// The trees of this turn and the width: mostly one tree, at times with another before or behind it.
    fn nth(&self, turn: u64, rng: &mut Rng) -> (Vec<Tree>, usize) {
        let turn = turn % self.count();
        let at = self.ends.partition_point(|end| *end <= turn);
        let tree = &self.trees[at];
        let left = (self.ends[at] - turn) as usize;
        let width = if left == 1 { u32::MAX as usize } else { widths(tree) as usize - left };
        let mut trees = vec![tree.clone()];
        if rng.one_in(8) {
            trees.insert(rng.below(2), self.trees[rng.below(self.trees.len())].clone());
        }
        (trees, width)
    }

    pub fn table(&self, turn: u64, rng: &mut Rng) -> (Vec<u8>, usize) {
        let (trees, width) = self.nth(turn, rng);
        (table_of(&trees), width)
    }

    pub fn source(&self, turn: u64, rng: &mut Rng) -> (Vec<u8>, usize) {
        let (trees, width) = self.nth(turn, rng);
        let mut text = String::new();
        trees.iter().for_each(|tree| spell(tree, &mut text, rng));
        (text.into_bytes(), width)
    }
}

/// The widths 0 to 3 beyond the cost, from which on all stands on one line, and the largest.
fn widths(tree: &Tree) -> u64 {
    cost(tree) as u64 + 5
}

fn has_lowest(tree: &Tree) -> bool {
    match tree {
        Tree::Symbol(_) => false,
        Tree::Int(value) => *value == i128::MIN,
        Tree::Binding(_, inner) => has_lowest(inner),
        Tree::List(items) => items.iter().any(has_lowest),
    }
}

fn spell(tree: &Tree, text: &mut String, rng: &mut Rng) {
    match tree {
        Tree::Symbol(bytes) => text.push_str(str::from_utf8(bytes).expect("they are letters here")),
        Tree::Int(i128::MIN) if rng.one_in(2) => text.push_str(rng.pick(SPELLINGS)),
        Tree::Int(value) => text.push_str(&int_text(*value)),
        Tree::Binding(name, inner) => {
            text.push_str(str::from_utf8(name).expect("they are letters here"));
            text.push('@');
            return spell(inner, text, rng);
        }
        Tree::List(items) => {
            text.push('(');
            items.iter().for_each(|item| spell(item, text, rng));
            text.push(')');
        }
    }
    text.push(' ');
}

#[cfg(test)]
mod tests;
