//! The ways in which a good table's costs are spoilt.

use super::{List, Made, rules, store, stored};
use crate::rng::Rng;
use crate::tree::{put_list, put_record};

type Way = fn(&mut Made, &mut Rng);

pub const WAYS: &[(&str, Way)] = &[
    ("none", |_, _| {}),
    ("one", |made, rng| made.spoil(rng.pick(&made.lists), rng)),
    ("outer", |made, rng| nested(made, &[0], rng)),
    ("inner", |made, rng| nested(made, &[1], rng)),
    ("outer and inner", |made, rng| nested(made, &[0, 1], rng)),
    ("side by side", side_by_side),
    ("empty", empty),
    ("all", |made, rng| made.lists.clone().into_iter().for_each(|list| made.spoil(list, rng))),
    ("exchanged", exchanged),
    ("a byte", a_byte),
    ("another count", another_count),
    ("another rule", rules::other_rule),
    ("other atoms", rules::other_atoms),
    ("a fault later", |made, rng| {
        made.spoil(rng.pick(&made.lists), rng);
        fault_after(made, rng);
    }),
    ("a fault before", |made, rng| {
        made.spoil(rng.pick(&made.lists), rng);
        let fault = fault(rng);
        made.table.splice(0..0, fault).for_each(drop);
    }),
    ("missing trees", missing),
    ("kind 4", kind_4),
    ("another length", another_length),
];

/// Of a list and one that is in it, those with these numbers; any list where no list is in another.
fn nested(made: &mut Made, which: &[usize], rng: &mut Rng) {
    match made.pair(|one, next| next.at < one.end, rng) {
        Some((outer, inner)) => which.iter().for_each(|which| made.spoil([outer, inner][*which], rng)),
        None => made.spoil(rng.pick(&made.lists), rng),
    }
}

/// Two lists neither of which is in the other.
fn side_by_side(made: &mut Made, rng: &mut Rng) {
    let pair = made.pair(|one, next| next.at >= one.end, rng);
    let (one, next) = pair.unwrap_or((made.lists[0], rng.pick(&made.lists)));
    made.spoil(one, rng);
    if next.at > one.at {
        made.spoil(next, rng);
    }
}

/// An empty list that costs 0, or 2 as it prints, or anything.
fn empty(made: &mut Made, rng: &mut Rng) {
    let empty: Vec<List> = made.lists.iter().copied().filter(|list| list.items == 0).collect();
    let list = if empty.is_empty() { rng.pick(&made.lists) } else { rng.pick(&empty) };
    match rng.below(3) {
        0 => store(&mut made.table, list.at, 0),
        1 => store(&mut made.table, list.at, 2),
        _ => made.spoil(list, rng),
    }
}

/// Two lists have each other's cost, which at times is the same.
fn exchanged(made: &mut Made, rng: &mut Rng) {
    let (one, next) = (rng.pick(&made.lists).at, rng.pick(&made.lists).at);
    let costs = (stored(&made.table, one), stored(&made.table, next));
    store(&mut made.table, one, costs.1);
    store(&mut made.table, next, costs.0);
}

/// A byte of a stored cost is another, or what it was.
fn a_byte(made: &mut Made, rng: &mut Rng) {
    let at = rng.pick(&made.lists).at + 10 + rng.below(4);
    made.table[at] = rng.pick(&[0, 1, 2, 3, 5, 7, 14, 127, 128, 255]);
}

/// A list gives its last item away, or takes in what follows it: the costs are those of what was there before.
fn another_count(made: &mut Made, rng: &mut Rng) {
    let list = rng.pick(&made.lists);
    let items = if list.items > 0 && rng.one_in(2) { list.items - 1 } else { list.items + 1 };
    made.table[list.at + 6..list.at + 10].copy_from_slice(&(items as u32).to_le_bytes());
}

/// A wrong cost, and a list or a binding that wants more than there is.
fn missing(made: &mut Made, rng: &mut Rng) {
    made.spoil(rng.pick(&made.lists), rng);
    match rng.below(3) {
        0 => put_list(&mut made.table, 1 + rng.below(3) as u32, 2),
        1 => put_record(&mut made.table, 3, b"n"),
        _ => {
            let first = made.lists[0].at;
            made.table[first + 6..first + 10].copy_from_slice(&u32::MAX.to_le_bytes());
        }
    }
}

/// Something is wrong in a record at the table's end, or in one that was there.
fn fault_after(made: &mut Made, rng: &mut Rng) {
    let last = made.lists[made.lists.len() - 1].at;
    match rng.below(4) {
        0 => made.table.truncate(last + 1 + rng.below(made.table.len() - last - 1)),
        1 => made.table[last + 4] = rng.pick(&[0, 4, 6]),
        _ => {
            let fault = fault(rng);
            made.table.extend(fault);
        }
    }
}

/// A record with a fault of its own, of each number that it can be.
fn fault(rng: &mut Rng) -> Vec<u8> {
    let mut table = Vec::new();
    match rng.below(6) {
        0 => table.extend([5, 0, 0, 0, 1, 0]),
        1 => put_record(&mut table, 4, &[0; 4]),
        2 => put_record(&mut table, 5, &[0; 4]),
        3 => (0..65).for_each(|_| put_list(&mut table, 1, 1)),
        4 => put_record(&mut table, 1, b"a b"),
        _ => put_record(&mut table, 3, b""),
    }
    table
}

/// A list as it was before costs were stored, or all, or one of the old kind with a cost.
fn kind_4(made: &mut Made, rng: &mut Rng) {
    let one = rng.pick(&made.lists);
    let all = rng.one_in(2);
    // from the last on, so that the places of those before it stay
    for list in made.lists.iter().rev().filter(|list| all || list.at == one.at) {
        made.table[list.at + 4] = 4;
        if all || rng.one_in(2) {
            made.table[list.at] = 10;
            made.table.drain(list.at + 10..list.at + 14).for_each(drop);
        }
    }
}

/// A list's record that ends before its cost does, or is filled up after it.
fn another_length(made: &mut Made, rng: &mut Rng) {
    let list = rng.pick(&made.lists);
    let len = rng.pick(&[6, 10, 13, 15, 18]);
    made.table[list.at] = len as u8;
    if len < 14 {
        made.table.drain(list.at + len..list.at + 14).for_each(drop);
    } else {
        made.table.splice(list.at + 14..list.at + 14, vec![0; len - 14]).for_each(drop);
    }
}
