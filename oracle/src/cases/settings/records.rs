//! Records of settings files where the rules meet, and good files of them.

use crate::document::settings::{EDITION, FIRST_SKIPPED, STYLE, WIDTH};
use crate::tree::put_record;

/// How many of the records are good by themselves.
pub const GOOD: usize = 10;

pub fn record(kind: u16, value: &[u8]) -> Vec<u8> {
    let mut record = Vec::new();
    put_record(&mut record, kind, value);
    record
}

/// A record that says of itself that it is so long.
fn saying(len: u32, kind: u16, value: &[u8]) -> Vec<u8> {
    [&len.to_le_bytes()[..], &kind.to_le_bytes(), value].concat()
}

/// Good ones first, and the very first an edition.
pub fn records() -> Vec<Vec<u8>> {
    vec![
        record(EDITION, &[7, 0]),
        record(WIDTH, &[80, 0, 0, 0]),
        record(STYLE, b"B"),
        record(STYLE, &[b's'; 32]),
        record(FIRST_SKIPPED, &[]),
        record(FIRST_SKIPPED, &[1, 2]),
        record(FIRST_SKIPPED + 1, &[3]),
        record(u16::MAX, &[]),
        record(u16::MAX, &[5]),
        record(EDITION, &[255, 255]),
        // too short or too long for their kind
        record(EDITION, &[7]),
        record(EDITION, &[7, 0, 0]),
        record(WIDTH, &[80, 0, 0]),
        record(WIDTH, &[80, 0, 0, 0, 0]),
        record(STYLE, &[]),
        record(STYLE, &[b's'; 33]),
        // of no kind that is known or skipped
        record(0, &[7, 0]),
        record(4, &[80, 0, 0, 0]),
        record(FIRST_SKIPPED - 1, &[]),
        // lengths below 6, and ones that reach into what follows, the second over an edition
        saying(0, FIRST_SKIPPED + 2, &[]),
        saying(5, FIRST_SKIPPED + 2, &[]),
        saying(8, FIRST_SKIPPED + 3, &[4]),
        saying(14, FIRST_SKIPPED + 4, &[]),
        saying(u32::MAX, FIRST_SKIPPED + 5, &[]),
        // heads that are cut
        vec![6],
        vec![8, 0, 0, 0, 1],
    ]
}

/// Good files.
pub fn good() -> Vec<Vec<u8>> {
    let e = record(EDITION, &[7, 0]);
    let w = record(WIDTH, &[80, 0, 0, 0]);
    let s = record(STYLE, b"narrow");
    let other = record(40_000, b"\x06\0\0\0\x02\0");
    let last = record(u16::MAX, &[]);
    let files: &[&[&[u8]]] = &[
        &[&e],
        &[&record(EDITION, &[255, 255]), &w],
        &[&e, &s],
        &[&e, &w, &record(STYLE, &[0; 32])],
        &[&e, &record(STYLE, b"B"), &record(WIDTH, &[255; 4])],
        &[&e, &other, &w, &last, &s],
        &[&e, &other, &last],
        &[&e, &s, &other, &w],
    ];
    files.iter().map(|records| records.concat()).collect()
}
