//! Tables and widths for the fits test's count: lists in lists that do not fit, behind bindings, empty ones at columns around the
//! width, and lists that just fit or just do not.

use crate::rng::Rng;
use crate::tree::{DEPTH, Tree, cost, table_of};

/// A few trees, at a width that one of their lists begins at or reaches.
pub fn table(small: bool, rng: &mut Rng) -> (Vec<u8>, usize) {
    let trees: Vec<Tree> = (0..1 + rng.below(3)).map(|_| tree(small, rng)).collect();
    let width = telling(&trees, rng);
    (table_of(&trees), width)
}

/// Lists in lists around thousands of atoms, whose costs take more than a byte or two.
pub fn large(rng: &mut Rng) -> (Vec<u8>, usize) {
    let mut atoms = row(2_000 + rng.below(3_000), rng);
    // where it is long, many lists reach about one width by it
    atoms.push(Tree::Symbol(vec![b'w'; 1 + rng.below(80)]));
    let trees = [around(1 + rng.below(DEPTH - 1), Tree::List(atoms), rng)];
    let width = telling(&trees, rng);
    (table_of(&trees), width)
}

fn tree(small: bool, rng: &mut Rng) -> Tree {
    // the deepest have texts of many kilobytes, most of them blanks
    let (usual, every) = if small { (6, 10) } else { (14, 6) };
    let most = if rng.one_in(every) { DEPTH - 3 } else { usual };
    around(rng.below(most + 1), bottom(small, rng), rng)
}

/// So many lists and bindings around a tree, all of one make, or of any.
fn around(levels: usize, inner: Tree, rng: &mut Rng) -> Tree {
    let make = rng.below(8);
    (0..levels).fold(inner, |inner, _| match if make < 6 { make } else { rng.below(6) } {
        0 => Tree::List(vec![inner]),
        1 => Tree::List(vec![atom(rng), inner]),
        2 => Tree::List(vec![inner, atom(rng)]),
        3 => Tree::List(vec![Tree::List(Vec::new()), inner]),
        4 => Tree::List(vec![inner, Tree::List(vec![atom(rng)])]),
        _ if matches!(inner, Tree::List(_)) => Tree::Binding(name(rng), Box::new(inner)),
        _ => Tree::List(vec![inner]),
    })
}

/// What stands in the middle, at most three lists and bindings deep.
fn bottom(small: bool, rng: &mut Rng) -> Tree {
    let bound = |name: Vec<u8>, inner: Tree| Tree::Binding(name, Box::new(inner));
    let empty = || Tree::List(Vec::new());
    match rng.below(7) {
        // now and then so many that the cost takes more than a byte
        0 if !small && rng.one_in(40) => Tree::List(row(300 + rng.below(700), rng)),
        0 => Tree::List(row(rng.below(if small { 6 } else { 30 }), rng)),
        // empty lists at columns one after the other, in the middle of which the width is more often than not
        1 => Tree::List((0..2 + rng.below(8)).map(|len| bound(vec![b'n'; 1 + len], empty())).collect()),
        2 => bound(vec![b'n'; 1 + rng.below(20)], empty()),
        3 => Tree::List((0..rng.below(6)).map(|_| empty()).collect()),
        // a nested list whose own share is large, or a binding whose is
        4 => Tree::List([row(rng.below(4), rng), vec![Tree::List(row(rng.below(12), rng))]].concat()),
        5 => Tree::List(
            [row(rng.below(4), rng), vec![bound(vec![b'n'; 1 + rng.below(30)], atom(rng))]].concat(),
        ),
        // lists inside one that fits where those around it do not
        _ => Tree::List(vec![Tree::List(vec![Tree::List(row(1 + rng.below(3), rng)), atom(rng)]), atom(rng)]),
    }
}

fn row(count: usize, rng: &mut Rng) -> Vec<Tree> {
    (0..count).map(|_| atom(rng)).collect()
}

fn atom(rng: &mut Rng) -> Tree {
    match rng.below(8) {
        0 => Tree::Int(rng.pick(&[0, -7, 100, i128::MAX, -i128::MAX, i128::MIN])),
        1 => Tree::Symbol(vec![b'w'; 1 + rng.below(40)]),
        _ => Tree::Symbol(vec![b'a'; 1 + rng.below(3)]),
    }
}

fn name(rng: &mut Rng) -> Vec<u8> {
    let most = rng.pick(&[3, 3, 3, 30]);
    vec![b'n'; 1 + rng.below(most)]
}

/// A width at which a list begins or which it reaches, or a little to either side.
fn telling(trees: &[Tree], rng: &mut Rng) -> usize {
    let mut places = Vec::new();
    trees.iter().for_each(|tree| put_reaches(tree, 0, &mut places));
    if places.is_empty() || rng.one_in(12) {
        return super::width(60, rng);
    }
    (rng.pick(&places) + rng.below(4)).saturating_sub(2)
}

/// The column of each list, where no list around it fits, and how far it reaches from there.
fn put_reaches(tree: &Tree, column: usize, places: &mut Vec<usize>) {
    match tree {
        Tree::Symbol(_) | Tree::Int(_) => {}
        Tree::Binding(name, inner) => put_reaches(inner, column + name.len() + 3, places),
        Tree::List(items) => {
            places.extend([column, column + cost(tree)]);
            let columns = std::iter::once(column + 1).chain(std::iter::repeat(0));
            items.iter().zip(columns).for_each(|(item, column)| put_reaches(item, column, places));
        }
    }
}

#[cfg(test)]
mod tests;
