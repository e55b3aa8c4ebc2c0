//! The lists that the fits test looks at: counts by hand, and the most that there can be.

use tulbazhik::{numbers, print, print_into, read};

fn looked(source: &str, width: u32) -> u64 {
    print(&read(source.as_bytes()).expect("no refusal"), width).expect("no refusal").looked
}

#[test]
fn counts_by_hand() {
    let cases: &[(&str, u32, u64)] = &[
        ("", 100, 0),
        ("a x @ b", 0, 0),
        ("(rule (a b) c)", 14, 1),
        ("(rule (a b) c)", 13, 2),
        ("()", 0, 1),
        ("(a) (a)", 3, 2),
        // a binding's list stands at column 4, past the width or not
        ("x @ ()", 3, 0),
        ("x @ ()", 4, 1),
        // costs 11, 7 and 3, and each inner list begins a line
        ("(a (b (c)))", 11, 1),
        ("(a (b (c)))", 10, 2),
        ("(a (b (c)))", 6, 3),
        ("(a (b (c)))", 0, 3),
        // costs 5 and 3, and the inner list stands at column 1
        ("((a))", 5, 1),
        ("((a))", 4, 2),
        ("((a))", 1, 2),
        ("((a))", 0, 1),
        // costs 11, 1, 5 and 1
        ("(a () (b ()))", 11, 1),
        ("(a () (b ()))", 10, 3),
        ("(a () (b ()))", 4, 4),
    ];
    for &(source, width, count) in cases {
        assert_eq!(looked(source, width), count, "{source} at width {width}");
    }
}

/// 64 lists, one in the other, around 1,000 symbols: at width 2,126 none fits, and each is looked at once.
#[test]
fn deep_lists_are_looked_at_once() {
    let source = ["(".repeat(64), "a ".repeat(999), "w".repeat(64), ")".repeat(64)].concat();
    assert_eq!(looked(&source, 2126), 64);
    // one more, and the innermost fits
    assert_eq!(looked(&source, 2127), 64);
    // the outermost fits
    assert_eq!(looked(&source, u32::MAX), 1);
    // they stand at columns 0 to 63
    assert_eq!([0, 31, 62, 63].map(|width| looked(&source, width)), [1, 32, 63, 64]);
}

#[test]
fn a_lent_room_gives_the_same_count() {
    let table = read(b"(rule (a b) c)").expect("no refusal");
    let mut room = [b'#'; 25];
    let error = print_into(&table, 13, &mut room[..23]).expect_err("a byte is wanting");
    assert_eq!((error.number, error.place, room), (numbers::PRINT_ROOM, 24, [b'#'; 25]));
    let printed = print_into(&table, 13, &mut room).expect("it has room");
    assert_eq!((printed.len, printed.looked, room[24]), (24, 2, b'#'));
}
