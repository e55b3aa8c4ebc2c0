//! The cost that a list's record stores: of what was read, and 25 where it is another, in its place among the refusals of a table.

use tulbazhik::{Printing, numbers, print, print_into, read};

fn record(kind: u16, value: &[u8]) -> Vec<u8> {
    let length = 6 + value.len() as u32;
    [&length.to_le_bytes(), &kind.to_le_bytes()[..], value].concat()
}

fn symbol(name: &str) -> Vec<u8> {
    record(1, name.as_bytes())
}

fn binding(name: &str) -> Vec<u8> {
    record(3, name.as_bytes())
}

fn list(count: u32, cost: u32) -> Vec<u8> {
    record(5, &[count.to_le_bytes(), cost.to_le_bytes()].concat())
}

/// The number and place of a refusal, which is the same whole and through windows, and changes nothing.
fn refused(table: &[Vec<u8>]) -> (u8, usize) {
    let (table, mut room) = (table.concat(), [b'#'; 64]);
    let error = print_into(&table, 100, &mut room).expect_err("it is refused");
    let mut printing = Printing::new(&table, 100);
    assert_eq!(printing.fill(&mut room), Err(error));
    assert_eq!(printing.fill(&mut []), Err(error), "without room too");
    assert_eq!((room, printing.state(), printing.looked()), ([b'#'; 64], [0; 72], None));
    (error.number, error.place)
}

#[test]
fn what_is_read_stores_it() {
    let integers =
        [&i128::MIN.to_le_bytes(), &(-12i128).to_le_bytes()].map(|value| record(2, value)).concat();
    let cases = [
        ("x @ (a)", vec![binding("x"), list(1, 3), symbol("a")]),
        ("()", vec![list(0, 1)]),
        ("(0x80000000000000000000000000000000 -12)", vec![list(2, 40), integers]),
        ("(x @ (a))", vec![list(1, 9), binding("x"), list(1, 3), symbol("a")]),
        (
            "(rule (a b) c)",
            vec![list(3, 14), symbol("rule"), list(2, 5), symbol("a"), symbol("b"), symbol("c")],
        ),
    ];
    for (source, records) in cases {
        let table = read(source.as_bytes()).expect("it reads");
        assert_eq!(table, records.concat(), "{source}");
        let text = print(&table, 100).expect("the costs are right").bytes;
        assert_eq!(text, format!("{source}\n").as_bytes());
    }
    assert_eq!(read(b"x @ (a)").map(|table| table.len()), Ok(28));
}

#[test]
fn a_wrong_cost_is_refused_at_its_record() {
    for cost in [0, 2, 4, 3 << 8, u32::MAX] {
        let table = [binding("x"), list(1, cost), symbol("a")];
        assert_eq!(refused(&table), (numbers::WRONG_COST, 7), "{cost}");
    }
    // an empty list costs 1, though it prints 2 bytes
    assert_eq!(refused(&[list(0, 2)]), (numbers::WRONG_COST, 0));
}

#[test]
fn the_first_in_order_is_told() {
    // an outer list before the one inside it, also where its number is right for what that one stores
    for outer in [0, 6] {
        assert_eq!(refused(&[list(1, outer), list(1, 4), symbol("a")]), (numbers::WRONG_COST, 0));
    }
    assert_eq!(refused(&[list(1, 5), list(1, 4), symbol("a")]), (numbers::WRONG_COST, 14));
    // the first of two items, then of two trees
    assert_eq!(refused(&[list(2, 5), list(0, 0), list(0, 0)]), (numbers::WRONG_COST, 14));
    assert_eq!(refused(&[list(2, 5), list(0, 1), list(0, 0)]), (numbers::WRONG_COST, 28));
    assert_eq!(refused(&[list(0, 0), list(0, 0)]), (numbers::WRONG_COST, 0));
    assert_eq!(refused(&[list(0, 1), list(0, 0)]), (numbers::WRONG_COST, 14));
}

#[test]
fn every_other_fault_of_the_table_comes_first() {
    let behind = |records: &[Vec<u8>]| refused(&[&[list(1, 4), symbol("a")], records].concat());
    assert_eq!(behind(&[]), (numbers::WRONG_COST, 0));
    assert_eq!(behind(&[vec![6, 0, 0]]), (numbers::BAD_RECORD, 21));
    assert_eq!(behind(&[record(0, &[])]), (numbers::UNKNOWN_KIND, 21));
    assert_eq!(behind(&[record(5, &[0; 4])]), (numbers::WRONG_LENGTH, 21));
    assert_eq!(behind(&[symbol("a b")]), (numbers::BAD_SYMBOL, 21));
    assert_eq!(behind(&[binding("x")]), (numbers::MISSING_TREES, 28));
    assert_eq!(behind(&vec![list(1, 0); 65]), (numbers::TOO_DEEP, 21 + 64 * 14));
}

#[test]
fn it_comes_before_want_of_room() {
    for (cost, expected) in [(4, (numbers::WRONG_COST, 0)), (3, (numbers::PRINT_ROOM, 4))] {
        let mut room = [b'#'; 3];
        let error = print_into(&[list(1, cost), symbol("a")].concat(), 100, &mut room).expect_err("no room");
        assert_eq!((error.number, error.place, room), (expected.0, expected.1, [b'#'; 3]));
    }
}

#[test]
fn lists_of_version_3_are_of_unknown_kind() {
    let with = |list| refused(&[binding("x"), list, symbol("a")]);
    assert_eq!(with(record(4, &[1, 0, 0, 0])), (numbers::UNKNOWN_KIND, 7));
    assert_eq!(with(record(4, &[1, 0, 0, 0, 3, 0, 0, 0])), (numbers::UNKNOWN_KIND, 7));
    for len in (0..20).filter(|len| *len != 8) {
        assert_eq!(with(record(5, &vec![1; len])), (numbers::WRONG_LENGTH, 7), "{len} bytes");
    }
}
