//! Settings of a project with a house file behind it, looked up and written, worked by hand from document 02.

use super::{Case, case};

/// Edition 7; widths 80 and 100; style name `B`; kinds that are skipped, without and with a payload.
const E: &str = "0800000001000700";
const W80: &str = "0a000000020050000000";
const W100: &str = "0a000000020064000000";
const B: &str = "07000000030042";
const SKIPPED: &str = "060000000080";
const LAST: &str = "08000000ffffaabb";
/// A style name of 32 bytes.
const LONGEST: &str = "260000000300000102030405060708090a0b0c0d0e0f101112131415161718191a1b1c1d1e1f";

fn bytes(hex: &str) -> Vec<u8> {
    let half = |digit: u8| (digit as char).to_digit(16).expect("a digit") as u8;
    hex.as_bytes().chunks(2).map(|two| 16 * half(two[0]) + half(two[1])).collect()
}

/// What is asked, the two files, and the answer.
fn s(asked: u32, project: &[&str], house: &[&str], lines: &str) -> Case {
    let (project, house) = (bytes(&project.concat()), bytes(&house.concat()));
    case('S', asked, project.len() as u32, [project, house].concat(), lines)
}

fn copy(op: char, a: u32, room: u32, bytes: Vec<u8>, answer: Result<&[&str], &str>) -> Case {
    let lines = match answer {
        Ok(records) => format!("file {}\n{}\nkept", records.concat().len() / 2, records.concat()),
        Err(refusal) => format!("{refusal}\nkept"),
    };
    case(op, a, room, bytes, lines)
}

/// A width is written.
fn w(width: u32, room: u32, file: &[&str], answer: Result<&[&str], &str>) -> Case {
    copy('T', width, room, bytes(&file.concat()), answer)
}

/// A style name is written.
fn n(name: &[u8], room: u32, file: &[&str], answer: Result<&[&str], &str>) -> Case {
    copy('t', name.len() as u32, room, [name, &bytes(&file.concat())].concat(), answer)
}

pub fn cases() -> Vec<Case> {
    [looked_up(), at_fault(), widths(), styles()].concat()
}

fn looked_up() -> Vec<Case> {
    let name = &LONGEST[12..];
    vec![
        s(0, &[E, W80], &[E, W100], "width 80"),
        s(0, &[E], &[E, W100], "width 100"),
        s(0, &[E, B], &[E, LONGEST], "refusal 24 at 0 Neither"),
        s(0, &[E, "0a0000000200ffffffff"], &[E], "width 4294967295"),
        s(0, &[E, "0a000000020000000000"], &[E, W80], "width 0"),
        s(1, &[E, B], &[E, LONGEST], "style 1\n42"),
        s(1, &[E, W80], &[E, LONGEST, W80], &format!("style 32\n{name}")),
        s(1, &[E, W80], &[E, W80], "refusal 24 at 0 Neither"),
        s(2, &[E, B], &[E, LONGEST], "part Project 14 1"),
        s(2, &[E, W80], &[E, SKIPPED, W80, LONGEST], "part House 30 32"),
        s(2, &[E], &[E], "refusal 24 at 0 Neither"),
        // skipped kinds in any place but the first, and whatever the edition
        s(0, &["080000000100ffff", SKIPPED, LAST, W80], &[E], "width 80"),
        s(2, &["0800000001000000", LAST, B, SKIPPED], &[E], "part Project 22 1"),
    ]
}

/// Each fault by itself, at the project's and at the house's file.
fn at_fault() -> Vec<Case> {
    let mut cases = vec![
        // both are checked though the project's has the answer, and all of the project's comes first
        s(0, &[E, W80], &[], "refusal 23 at 0 House"),
        s(0, &[E, W80, W80], &[], "refusal 23 at 18 Project"),
        s(1, &[], &[E, B], "refusal 23 at 0 Project"),
        s(1, &[E], &[E, B, "07000000040042"], "refusal 23 at 15 House"),
    ];
    let files: &[(&[&str], usize)] = &[
        // no edition, or not first, or twice
        (&[], 0),
        (&[SKIPPED, E], 0),
        (&[W80], 0),
        (&[E, W80, E], 18),
        (&["070000000100aa"], 0),
        (&["090000000100070000"], 0),
        // a second of its kind, of skipped ones too
        (&[E, B, W80, "07000000030043"], 25),
        (&[E, SKIPPED, LAST, "070000000080aa"], 22),
        // lengths that are not right for the kind
        (&[E, "09000000020050aabb"], 8),
        (&[E, "0b00000002005000000000"], 8),
        (&[E, "060000000300"], 8),
        (&[E, "2700000003004242424242424242424242424242424242424242424242424242424242424242ff"], 8),
        // unknown kinds that are not skipped
        (&[E, "060000000000"], 8),
        (&[E, "060000000400"], 8),
        (&[E, SKIPPED, "06000000ff7f"], 14),
        // records cut short, lengths below 6 and past the end
        (&[E, W80, "06"], 18),
        (&[E, "0600000000"], 8),
        (&[E, "000000000080"], 8),
        (&[E, "050000000080"], 8),
        (&[E, "080000000080aa"], 8),
        (&[E, "ffffffff0080aa"], 8),
    ];
    for (file, place) in files {
        cases.push(s(0, file, &[E, W80], &format!("refusal 23 at {place} Project")));
        cases.push(s(2, &[E, B], file, &format!("refusal 23 at {place} House")));
        cases.push(w(80, 99, file, Err(&format!("refusal 23 at {place}"))));
        cases.push(n(b"", 0, file, Err(&format!("refusal 23 at {place}"))));
    }
    cases
}

fn widths() -> Vec<Case> {
    vec![
        w(100, 26, &[E, W80, LAST], Ok(&[E, W100, LAST])),
        w(100, 25, &[E, W80, LAST], Err("refusal 18 at 26")),
        w(100, 0, &[E], Err("refusal 18 at 18")),
        w(80, 99, &[E], Ok(&[E, W80])),
        w(80, 99, &[E, LONGEST, SKIPPED], Ok(&[E, LONGEST, SKIPPED, W80])),
        w(80, u32::MAX, &[E, SKIPPED, W80, B], Ok(&[E, SKIPPED, W80, B])),
        w(0, 18, &[E, W80], Ok(&[E, "0a000000020000000000"])),
        w(u32::MAX, 18, &[E], Ok(&[E, "0a0000000200ffffffff"])),
    ]
}

fn styles() -> Vec<Case> {
    let longest = bytes(&LONGEST[12..]);
    vec![
        n(b"B", 15, &[E], Ok(&[E, B])),
        n(b"B", 14, &[E], Err("refusal 18 at 15")),
        n(b"B", 99, &[E, LONGEST, W80], Ok(&[E, B, W80])),
        n(&longest, 56, &[E, B, W80], Ok(&[E, LONGEST, W80])),
        n(&longest, 55, &[E, B, W80], Err("refusal 18 at 56")),
        n(&longest, 99, &[E, LAST, SKIPPED], Ok(&[E, LAST, SKIPPED, LONGEST])),
        // 26 before 18, and at the name's length
        n(b"", 0, &[E, B], Err("refusal 26 at 0")),
        n(&[b'n'; 33], 0, &[E, B], Err("refusal 26 at 33")),
        n(&[b'n'; 300], 99, &[E], Err("refusal 26 at 300")),
    ]
}

/// Files at the limit, which are too long for a stored sample.
#[cfg(test)]
pub fn long() -> Vec<Case> {
    // the edition, and a record of kind 32768 for the rest
    let file = |len: usize| {
        let rest = (len - 8) as u32;
        [bytes(E), rest.to_le_bytes().to_vec(), bytes("0080"), vec![0xaa; len - 14]].concat()
    };
    let two = |project: &[u8], house: &[u8], lines: &str| {
        case('S', 0, project.len() as u32, [project, house].concat(), lines)
    };
    let (over, good) = (vec![0; 65_537], bytes(E));
    let width = |len: usize, room: u32, lines: &str| case('T', 80, room, file(len), lines);
    let name =
        |len: usize, room: u32, lines: &str| case('t', 2, room, [b"ab".to_vec(), file(len)].concat(), lines);
    let hex = |len: usize, added: &str| {
        let file: String = file(len).iter().map(|byte| format!("{byte:02x}")).collect();
        format!("file 65536\n{file}{added}\nkept")
    };
    vec![
        two(&file(65_536), &file(65_536), "refusal 24 at 0 Neither"),
        two(&file(65_537), &good, "refusal 1 at 65536 Project"),
        two(&good, &file(65_537), "refusal 1 at 65536 House"),
        // 1 before 23 in a file, and all of the project's before the house's
        two(&over, &[], "refusal 1 at 65536 Project"),
        two(&[], &over, "refusal 23 at 0 Project"),
        width(65_526, 65_536, &hex(65_526, W80)),
        width(65_526, 65_535, "refusal 18 at 65536\nkept"),
        width(65_527, 99_999, "refusal 1 at 65536\nkept"),
        width(65_527, 0, "refusal 1 at 65536\nkept"),
        width(65_537, 99_999, "refusal 1 at 65536\nkept"),
        name(65_528, 65_536, &hex(65_528, "0800000003006162")),
        name(65_529, 65_536, "refusal 1 at 65536\nkept"),
        case('t', 0, 0, file(65_536), "refusal 26 at 0\nkept"),
        case('t', 0, 0, over, "refusal 1 at 65536\nkept"),
    ]
}
