//! -2^127 is printed as `0x8` and 31 zeros, whole and through windows, and what is printed reads back as the same table.

use tulbazhik::{Kind, Printing, Text, print, read, tokens};

const LOWEST: &str = "0x80000000000000000000000000000000";

/// The print through windows of this length, joined, and its count.
fn through_windows(table: &[u8], width: u32, size: usize) -> (Vec<u8>, u64) {
    let (mut printing, mut window, mut joined) = (Printing::new(table, width), vec![0; size], Vec::new());
    while let Some(n) = printing.fill(&mut window).expect("no refusal") {
        joined.extend(&window[..n]);
    }
    (joined, printing.looked().expect("it comes with the end"))
}

fn text(source: &str, width: u32) -> String {
    let Text { bytes, .. } = print(&read(source.as_bytes()).expect("it reads"), width).expect("it prints");
    String::from_utf8(bytes).expect("the source is text")
}

#[test]
fn it_is_one_integer_in_every_spelling() {
    let record = [&[22, 0, 0, 0, 2, 0][..], &i128::MIN.to_le_bytes()].concat();
    let other =
        ["170141183460469231731687303715884105728", "0X8000_0000_0000_0000_0000_0000_0000_0000", LOWEST];
    for source in other {
        assert_eq!(read(source.as_bytes()).as_ref(), Ok(&record), "{source}");
        for width in [0, 33, 34, 35, 100, u32::MAX] {
            assert_eq!(text(source, width), format!("{LOWEST}\n"), "{source} at width {width}");
        }
    }
    // the one above it is a decimal
    let above = "-0x7fffffffffffffffffffffffffffffff";
    assert_eq!(text(above, 100), "-170141183460469231731687303715884105727\n");
}

#[test]
fn what_is_printed_reads_back() {
    let sources = [
        LOWEST.to_string(),
        format!("x @ {LOWEST}"),
        format!("(rule (band x {LOWEST}) (fabs x))"),
        format!("({LOWEST} a {LOWEST}) (a x @ ({LOWEST}) -1)"),
    ];
    for source in sources {
        let table = read(source.as_bytes()).expect("it reads");
        for width in (0..=80).chain([100, u32::MAX]) {
            let Text { bytes, looked } = print(&table, width).expect("it prints");
            assert_eq!(read(&bytes).as_ref(), Ok(&table), "{source} at width {width}");
            for size in [1, 2, 3, 33, 34, 35, 512] {
                let windows = through_windows(&table, width, size);
                assert_eq!(windows, (bytes.clone(), looked), "{source} at width {width}, windows of {size}");
            }
        }
    }
}

#[test]
fn its_cost_is_the_length_of_its_text() {
    // two items and 1 more, 1 for `a` and 34; with the decimal's 40 it would be 44
    let source = format!("(a {LOWEST})");
    for width in [38, 43, 44] {
        assert_eq!(text(&source, width), format!("{source}\n"));
    }
    assert_eq!(text(&source, 37), format!("(a\n    {LOWEST}\n)\n"));
}

#[test]
fn printed_and_lexed_it_is_the_same_token() {
    let printed = text(&format!("(a {LOWEST})"), 0);
    let kinds: Vec<Kind> = tokens(printed.as_bytes()).map(|token| token.expect("it lexes").kind).collect();
    assert_eq!(kinds, [Kind::LParen, Kind::Symbol, Kind::Int(i128::MIN), Kind::RParen]);
}
