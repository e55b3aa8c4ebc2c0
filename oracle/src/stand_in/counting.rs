//! The count of the fits test from what is left of the width alone, from which a tree takes its cost record by record: with no text and no sum.

use crate::tree::{Tree, int_text};

/// Over all trees, each from column 0 on.
pub fn looked(trees: &[Tree], width: usize) -> usize {
    trees.iter().map(|tree| count(tree, width, Some(width))).sum()
}

/// The lists tested in a tree that begins with so much of the width left, or past the width. Inside a list that fits nothing is tested, and in any
/// other the first item stands behind `(` and each further one on a line of its own.
fn count(tree: &Tree, width: usize, left: Option<usize>) -> usize {
    let less = |taken: usize| left.and_then(|left| left.checked_sub(taken));
    match tree {
        Tree::Symbol(_) | Tree::Int(_) => 0,
        Tree::Binding(name, inner) => count(inner, width, less(name.len() + 3)),
        Tree::List(_) if left.is_some_and(|left| after(tree, left).is_some()) => 1,
        Tree::List(items) => {
            let lefts = std::iter::once(less(1)).chain(std::iter::repeat(Some(width)));
            let inside: usize = items.iter().zip(lefts).map(|(item, left)| count(item, width, left)).sum();
            inside + usize::from(left.is_some())
        }
    }
}

/// What a tree's cost leaves of this; none where it is more.
fn after(tree: &Tree, left: usize) -> Option<usize> {
    match tree {
        Tree::Symbol(bytes) => left.checked_sub(bytes.len()),
        Tree::Int(value) => left.checked_sub(int_text(*value).len()),
        Tree::Binding(name, inner) => after(inner, left.checked_sub(name.len() + 3)?),
        Tree::List(items) => {
            items.iter().try_fold(left.checked_sub(1)?, |left, item| after(item, left)?.checked_sub(1))
        }
    }
}
