//! The documents' check of a table, record after record, with the items still due on a stack.

use crate::token::{Refusal, refusal};
use crate::tree::{DEPTH, LIST, TABLE_LIMIT, Tree, cost};

/// An open list or binding: the trees it has, and how many it is to have.
struct Open {
    name: Option<Vec<u8>>,
    items: Vec<Tree>,
    due: usize,
}

/// Its trees, or the first refusal: in each record 15, 20, 21, 13, 16, and 22 for missing trees at the end; then 25, since what a list costs is
/// told by what follows it.
pub fn trees(table: &[u8], is_symbol: &dyn Fn(&[u8]) -> bool) -> Result<Vec<Tree>, Refusal> {
    if table.len() > TABLE_LIMIT {
        return Err(refusal(1, TABLE_LIMIT));
    }
    let (mut whole, mut open, mut at) = (Vec::new(), Vec::<Open>::new(), 0);
    let mut stored = Vec::new();
    while at < table.len() {
        let (kind, payload) = record(&table[at..]).map_err(|number| refusal(number, at))?;
        if kind >= 3 && open.len() == DEPTH {
            return Err(refusal(13, at));
        }
        if matches!(kind, 1 | 3) && !is_symbol(payload) {
            return Err(refusal(16, at));
        }
        let number = |bytes: &[u8]| bytes.iter().rev().fold(0u128, |n, byte| n << 8 | *byte as u128);
        match kind {
            1 => complete(&mut whole, &mut open, Tree::Symbol(payload.to_vec())),
            2 => complete(&mut whole, &mut open, Tree::Int(number(payload) as i128)),
            3 => open.push(Open { name: Some(payload.to_vec()), items: Vec::new(), due: 1 }),
            _ => {
                let (items, cost) = payload.split_at(4);
                stored.push((at, number(cost) as usize));
                match number(items) as usize {
                    0 => complete(&mut whole, &mut open, Tree::List(Vec::new())),
                    due => open.push(Open { name: None, items: Vec::new(), due }),
                }
            }
        }
        at += payload.len() + 6;
    }
    if !open.is_empty() {
        return Err(refusal(22, table.len()));
    }
    match wrong_cost(&stored, &whole) {
        Some(at) => Err(refusal(25, at)),
        None => Ok(whole),
    }
}

/// The first record whose stored cost is not its list's, given each list record's place and stored cost in the table's order, which is that of
/// the lists in preorder.
fn wrong_cost(stored: &[(usize, usize)], trees: &[Tree]) -> Option<usize> {
    let mut lists = Vec::new();
    trees.iter().for_each(|tree| put_lists(tree, &mut lists));
    let wrong = stored.iter().zip(lists).find(|((_, stored), list)| *stored != cost(list));
    wrong.map(|((at, _), _)| *at)
}

/// The lists of a tree in preorder.
fn put_lists<'t>(tree: &'t Tree, lists: &mut Vec<&'t Tree>) {
    match tree {
        Tree::Symbol(_) | Tree::Int(_) => {}
        Tree::Binding(_, inner) => put_lists(inner, lists),
        Tree::List(items) => {
            lists.push(tree);
            items.iter().for_each(|item| put_lists(item, lists));
        }
    }
}

/// Kind and payload of the record at the front, or the number of its own refusal.
fn record(rest: &[u8]) -> Result<(u16, &[u8]), u32> {
    let head = rest.first_chunk::<6>().ok_or(15u32)?;
    let len = u32::from_le_bytes([head[0], head[1], head[2], head[3]]) as usize;
    let kind = u16::from_le_bytes([head[4], head[5]]);
    let payload = rest.get(6..len).ok_or(15u32)?;
    match (kind, len) {
        (1 | 3, _) | (2, 22) | (LIST, 14) => Ok((kind, payload)),
        (2 | LIST, _) => Err(21),
        _ => Err(20),
    }
}

/// Puts a complete tree where it belongs, and so on with what it completes.
fn complete(whole: &mut Vec<Tree>, open: &mut Vec<Open>, tree: Tree) {
    let mut tree = tree;
    while let Some(mut last) = open.pop() {
        last.items.push(tree);
        if last.items.len() < last.due {
            open.push(last);
            return;
        }
        tree = match last.name {
            Some(name) => Tree::Binding(name, Box::new(last.items.remove(0))),
            None => Tree::List(last.items),
        };
    }
    whole.push(tree);
}
