//! That the cases of Q tell the count from counts that are wrong.

use crate::answer::Side;
use crate::cases::Cases;
use crate::crate_side::CrateSide;
use crate::frame::after_layout;
use crate::tree::{Tree, cost};

/// A list as a print comes upon it.
struct Met<'t> {
    list: &'t Tree,
    /// In the table's last tree, a tree of its own, behind a binding, or inside a list that fitted, where nothing is tested.
    last: bool,
    top: bool,
    bound: bool,
    inside: bool,
    /// Width minus column, where the column is not past the width.
    left: Option<usize>,
}

impl Met<'_> {
    fn is_empty(&self) -> bool {
        shares(self.list).len() == 1
    }

    fn fits(&self) -> bool {
        self.left.is_some_and(|left| cost(self.list) <= left)
    }

    fn looked(&self) -> usize {
        usize::from(!self.inside && self.left.is_some())
    }

    /// The count before costs were stored: the list's records up to the one that settled "no", or all of its own.
    fn walked(&self) -> usize {
        let (mut sum, shares) = (0, shares(self.list));
        let settled = shares.iter().position(|share| {
            sum += share;
            Some(sum) > self.left
        });
        self.looked() * settled.map_or(shares.len(), |at| at + 1)
    }
}

/// Each record's own share of the cost, in preorder.
fn shares(tree: &Tree) -> Vec<usize> {
    match tree {
        Tree::Symbol(_) | Tree::Int(_) => vec![cost(tree)],
        Tree::Binding(name, inner) => [vec![name.len() + 3], shares(inner)].concat(),
        Tree::List(items) => {
            let inside = items.iter().flat_map(shares);
            std::iter::once(items.len() + 1).chain(inside).collect()
        }
    }
}

/// What a list adds to a count that is wrong.
type Wrong = fn(&Met) -> usize;
const WRONG: &[(&str, Wrong)] = &[
    ("the records walked", |met| met.walked()),
    ("all of a list's own", |met| met.looked() * shares(met.list).len()),
    ("inside a list that fits", |met| usize::from(met.left.is_some())),
    ("past the width", |met| usize::from(!met.inside)),
    ("none at the width", |met| if met.left == Some(0) { 0 } else { met.looked() }),
    ("those that fit", |met| if met.fits() { met.looked() } else { 0 }),
    ("those that do not fit", |met| if met.fits() { 0 } else { met.looked() }),
    ("the last tree alone", |met| if met.last { met.looked() } else { 0 }),
    ("top lists alone", |met| if met.top { met.looked() } else { 0 }),
    ("no empty lists", |met| if met.is_empty() { 0 } else { met.looked() }),
    ("none behind a binding", |met| if met.bound { 0 } else { met.looked() }),
];

fn meet<'t>(tree: &'t Tree, width: usize, column: usize, from: Met<'t>, met: &mut Vec<Met<'t>>) {
    let Met { last, inside, .. } = from;
    match tree {
        Tree::Symbol(_) | Tree::Int(_) => {}
        Tree::Binding(name, inner) => {
            let from = Met { list: inner, bound: true, ..from };
            meet(inner, width, column + name.len() + 3, from, met)
        }
        Tree::List(items) => {
            let here = Met { list: tree, left: width.checked_sub(column), ..from };
            let inside = inside || here.fits();
            met.push(here);
            let columns = std::iter::once(column + 1).chain(std::iter::repeat(0));
            for (item, column) in items.iter().zip(columns) {
                let from = Met { list: item, last, top: false, bound: false, inside, left: None };
                meet(item, width, column, from, met);
            }
        }
    }
}

fn is_empty(met: &Met) -> bool {
    !met.inside && met.is_empty()
}

/// What some list of a case is to show.
type Shown = fn(&Met) -> bool;
const SHOWN: &[(&str, Shown)] = &[
    ("it is one short of fitting", |met| {
        !met.inside && met.left.is_some_and(|left| left + 1 == cost(met.list))
    }),
    ("its cost takes more than a byte", |met| met.looked() > 0 && cost(met.list) > 255),
    ("it fits, and nothing is left", |met| !met.inside && met.left == Some(cost(met.list))),
    ("its column is past the width", |met| !met.inside && met.left.is_none()),
    ("it is empty and past the width", |met| is_empty(met) && met.left.is_none()),
    ("it is empty and at the width", |met| is_empty(met) && met.left == Some(0)),
    ("it is empty and fits, and nothing is left", |met| is_empty(met) && met.left == Some(1)),
    ("it is empty and fits", |met| is_empty(met) && met.left > Some(1)),
];

/// Cases of Q show what they are to show, each way to count wrong differs in them, and no count is above document 02's bound.
#[test]
fn cases_of_q_tell_counts_apart() {
    for (sample, number, least) in [(false, 4000, 100), (true, 400, 10)] {
        let cases = Cases::new(1, &[], sample).unwrap();
        let (mut differ, mut show) = ([0; WRONG.len()], [0; SHOWN.len()]);
        for number in 0..number {
            let frame = cases.frame(b'Q', number);
            let Ok(trees) = CrateSide.check(after_layout(&frame.bytes)) else { continue };
            let (width, mut met) = (frame.a as usize, Vec::new());
            for (at, tree) in trees.iter().enumerate() {
                let last = at + 1 == trees.len();
                let from = Met { list: tree, last, top: true, bound: false, inside: false, left: None };
                meet(tree, width, 0, from, &mut met);
            }
            let right: usize = met.iter().map(Met::looked).sum();
            assert_eq!(CrateSide.lay_out(&trees, width).looked, right, "case {number}");
            assert!(right <= met.len(), "case {number}");
            for (count, (_, wrong)) in differ.iter_mut().zip(WRONG) {
                *count += usize::from(met.iter().map(wrong).sum::<usize>() != right);
            }
            for (count, (_, shown)) in show.iter_mut().zip(SHOWN) {
                *count += usize::from(met.iter().any(shown));
            }
        }
        let names = WRONG.iter().map(|(name, _)| name).chain(SHOWN.iter().map(|(name, _)| name));
        for (name, count) in names.zip(differ.iter().chain(&show)) {
            assert!(*count >= least, "{name}: {count} of {number} cases");
        }
    }
}
