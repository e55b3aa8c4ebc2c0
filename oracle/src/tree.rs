//! Trees and the records that hold them in a table.

pub const DEPTH: usize = 64;
pub const TABLE_LIMIT: usize = 16_777_216;
/// The kind of a list's record; document 01's kind 4, which held no cost, is unknown now.
pub const LIST: u16 = 5;

#[derive(Clone, Debug, PartialEq, Eq)]
pub enum Tree {
    Symbol(Vec<u8>),
    Int(i128),
    Binding(Vec<u8>, Box<Tree>),
    List(Vec<Tree>),
}

/// One record: length of the whole, kind, payload, little-endian.
pub fn put_record(table: &mut Vec<u8>, kind: u16, payload: &[u8]) {
    table.extend(((payload.len() + 6) as u32).to_le_bytes());
    table.extend(kind.to_le_bytes());
    table.extend(payload);
}

/// A list's record: how many items follow, and the cost that is kept with the list, right or not (document 02, 7/12).
pub fn put_list(table: &mut Vec<u8>, items: u32, cost: u32) {
    put_record(table, LIST, &[items.to_le_bytes(), cost.to_le_bytes()].concat());
}

/// A tree's records in preorder, with the right costs.
pub fn put_tree(table: &mut Vec<u8>, tree: &Tree) {
    match tree {
        Tree::Symbol(bytes) => put_record(table, 1, bytes),
        Tree::Int(value) => put_record(table, 2, &value.to_le_bytes()),
        Tree::Binding(name, inner) => {
            put_record(table, 3, name);
            put_tree(table, inner);
        }
        Tree::List(items) => {
            put_list(table, items.len() as u32, in_4_bytes(cost(tree)));
            items.iter().for_each(|item| put_tree(table, item));
        }
    }
}

pub fn table_of(trees: &[Tree]) -> Vec<u8> {
    let mut table = Vec::new();
    trees.iter().for_each(|tree| put_tree(&mut table, tree));
    table
}

/// An integer as it is printed: decimal, but for -2^127, which no decimal with a minus sign reads as (document 02, 6/12).
pub fn int_text(value: i128) -> String {
    match value {
        i128::MIN => format!("0x8{}", "0".repeat(31)),
        value => value.to_string(),
    }
}

/// Document 01's cost, added up over a subtree: what a list stores and its fits test looks at.
pub fn cost(tree: &Tree) -> usize {
    match tree {
        Tree::Symbol(bytes) => bytes.len(),
        Tree::Int(value) => int_text(*value).len(),
        Tree::Binding(name, inner) => name.len() + 3 + cost(inner),
        Tree::List(items) => items.iter().map(cost).sum::<usize>() + items.len() + 1,
    }
}

/// A cost as a record holds it. No record costs twice its bytes: an integer, the dearest, has at most 40 for its 22, and 1 more that its list adds
/// for it. So a table of at most 16,777,216 bytes has no cost of 2^25, let alone of 2^32.
pub fn in_4_bytes(cost: usize) -> u32 {
    u32::try_from(cost).expect("a table within its limit has no such cost")
}
