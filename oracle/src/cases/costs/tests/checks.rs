//! Checks of a table that go wrong with the costs that its lists store, beside one that is right.

use crate::answer::{Printed, Side};
use crate::crate_side::CrateSide;
use crate::document::lex::is_symbol;
use crate::document::settings::Setting;
use crate::drive::Feeder;
use crate::token::{Lexed, Refusal, refusal};
use crate::tree::{DEPTH, TABLE_LIMIT, Tree, cost};

/// When a wrong cost is told, and which one.
#[derive(Clone, Copy, PartialEq)]
enum Told {
    First,
    Last,
    /// The first that is found once its list is whole.
    InsideOut,
    /// So too, and before what is wrong further on.
    AtOnce,
    BeforeMissing,
}

/// A list's record as a check has read it, with what follows it.
struct Read<'t> {
    stored: usize,
    list: &'t Tree,
    depth: usize,
}

/// A check of a table, with what it may have wrong.
#[derive(Clone, Copy)]
pub struct Rules {
    /// Whether a cost is right.
    right: fn(&Read) -> bool,
    told: Told,
    /// 20 or 21 for a record of this kind and length, or 0.
    shape: fn(usize, usize) -> u32,
}

fn is_right(read: &Read) -> bool {
    read.stored == cost(read.list)
}

fn shape(kind: usize, len: usize) -> u32 {
    match (kind, len) {
        (1 | 3, _) | (2, 22) | (5, 14) => 0,
        (2 | 5, _) => 21,
        _ => 20,
    }
}

pub const RIGHT: Rules = Rules { right: is_right, told: Told::First, shape };

const fn right(right: fn(&Read) -> bool) -> Rules {
    Rules { right, ..RIGHT }
}

const fn told(told: Told) -> Rules {
    Rules { told, ..RIGHT }
}

const fn shaped(shape: fn(usize, usize) -> u32) -> Rules {
    Rules { shape, ..RIGHT }
}

pub const WRONG: &[(&str, Rules)] = &[
    ("none is looked at", right(|_| true)),
    ("the last one", told(Told::Last)),
    ("an inner one first", told(Told::InsideOut)),
    ("before later faults", told(Told::AtOnce)),
    ("before missing trees", told(Told::BeforeMissing)),
    ("of a tree alone", right(|read| read.depth > 0 || is_right(read))),
    ("inside another alone", right(|read| read.depth == 0 || is_right(read))),
    ("not of empty lists", right(|read| cost(read.list) == 1 || is_right(read))),
    ("of empty lists alone", right(|read| cost(read.list) > 1 || is_right(read))),
    ("one byte", right(|read| read.stored % 256 == cost(read.list) % 256)),
    ("two bytes", right(|read| read.stored % 65536 == cost(read.list) % 65536)),
    ("three bytes", right(|read| read.stored % (1 << 24) == cost(read.list) % (1 << 24))),
    ("too large", right(|read| read.stored <= cost(read.list))),
    ("too small", right(|read| read.stored >= cost(read.list))),
    ("one too large", right(|read| read.stored == cost(read.list) + 1 || is_right(read))),
    ("one too small", right(|read| read.stored + 1 == cost(read.list) || is_right(read))),
    ("0", right(|read| read.stored == 0 || is_right(read))),
    ("the greatest", right(|read| read.stored == u32::MAX as usize || is_right(read))),
    ("as it is printed", right(|read| read.stored == printed(read.list))),
    ("kind 4 of length 10", shaped(|kind, len| if (kind, len) == (4, 10) { 0 } else { shape(kind, len) })),
    ("kind 4 of length 14", shaped(|kind, len| if (kind, len) == (4, 14) { 0 } else { shape(kind, len) })),
    ("kind 4 by its length", shaped(|kind, len| if kind == 4 { 21 } else { shape(kind, len) })),
    ("length 10", shaped(|kind, len| if (kind, len) == (5, 10) { 0 } else { shape(kind, len) })),
    ("length 13", shaped(|kind, len| if (kind, len) == (5, 13) { 0 } else { shape(kind, len) })),
    ("length 15", shaped(|kind, len| if (kind, len) == (5, 15) { 0 } else { shape(kind, len) })),
    ("length 18", shaped(|kind, len| if (kind, len) == (5, 18) { 0 } else { shape(kind, len) })),
];

/// The bytes of a list on one line.
fn printed(list: &Tree) -> usize {
    CrateSide.lay_out(std::slice::from_ref(list), u32::MAX as usize).text.len() - 1
}

struct Walk<'a> {
    rules: Rules,
    table: &'a [u8],
    at: usize,
    wrong: Vec<usize>,
}

impl Walk<'_> {
    fn tree(&mut self, depth: usize) -> Result<Tree, Refusal> {
        let (at, rest) = (self.at, &self.table[self.at..]);
        let refused = |number: u32| Err(refusal(number, at));
        let number = |bytes: &[u8]| bytes.iter().rev().fold(0, |n, byte| n << 8 | *byte as usize);
        if rest.is_empty() {
            return refused(22);
        }
        let Some(payload) = rest.get(..4).and_then(|len| rest.get(6..number(len))) else {
            return refused(15);
        };
        let (kind, len) = (number(&rest[4..6]), payload.len() + 6);
        let number_of_shape = (self.rules.shape)(kind, len);
        if number_of_shape > 0 {
            return refused(number_of_shape);
        }
        if kind >= 3 && depth == DEPTH {
            return refused(13);
        }
        if matches!(kind, 1 | 3) && !is_symbol(payload) {
            return refused(16);
        }
        self.at += len;
        match kind {
            1 => Ok(Tree::Symbol(payload.to_vec())),
            2 => Ok(Tree::Int(i128::from_le_bytes(payload.try_into().unwrap()))),
            3 => Ok(Tree::Binding(payload.to_vec(), Box::new(self.tree(depth + 1)?))),
            _ => {
                let (items, stored) = payload.split_at(payload.len().min(4));
                let items: Result<_, _> = (0..number(items)).map(|_| self.tree(depth + 1)).collect();
                let list = Tree::List(items?);
                // a record that is taken for a list's without 4 bytes for a cost has none that is wrong
                let read = Read { stored: number(&stored[..stored.len().min(4)]), list: &list, depth };
                if stored.len() >= 4 && !(self.rules.right)(&read) {
                    self.wrong.push(at);
                    if self.rules.told == Told::AtOnce {
                        return refused(25);
                    }
                }
                Ok(list)
            }
        }
    }
}

impl Side for Rules {
    fn check(&self, table: &[u8]) -> Result<Vec<Tree>, Refusal> {
        if table.len() > TABLE_LIMIT {
            return Err(refusal(1, TABLE_LIMIT));
        }
        let mut walk = Walk { rules: *self, table, at: 0, wrong: Vec::new() };
        let mut trees = Ok(Vec::new());
        while let Ok(whole) = &mut trees
            && walk.at < table.len()
        {
            match walk.tree(0) {
                Ok(tree) => whole.push(tree),
                Err(refusal) => trees = Err(refusal),
            }
        }
        let missing = trees.as_ref().is_err_and(|refusal| refusal.number == 22);
        let told = match self.told {
            Told::InsideOut => walk.wrong.first(),
            Told::Last => walk.wrong.iter().max(),
            _ => walk.wrong.iter().min(),
        };
        match told {
            Some(at) if trees.is_ok() || missing && self.told == Told::BeforeMissing => Err(refusal(25, *at)),
            _ => trees,
        }
    }

    fn lay_out(&self, trees: &[Tree], width: usize) -> Printed {
        CrateSide.lay_out(trees, width)
    }

    fn lex(&self, _: &[u8], _: usize) -> Lexed {
        unreachable!("tables alone")
    }

    fn feeder(&self, _: &[u8]) -> Box<dyn Feeder> {
        unreachable!("tables alone")
    }

    fn read(&self, _: &[u8]) -> Result<Vec<u8>, Refusal> {
        unreachable!("tables alone")
    }

    fn settings(&self, _: &[u8]) -> Result<Vec<Setting>, usize> {
        unreachable!("tables alone")
    }
}
