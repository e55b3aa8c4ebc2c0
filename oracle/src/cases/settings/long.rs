//! Settings files at the limit: one long record that is skipped, or as many of the smallest as there can be.

use super::record;
use crate::document::settings::{EDITION, FIRST_SKIPPED, HEAD, STYLE, WIDTH};
use crate::rng::Rng;

/// A good file of this length.
pub fn filled(len: usize, rng: &mut Rng) -> Vec<u8> {
    let rows = rows(rng);
    let rest = len - HEAD - rows.concat().len();
    with_skipped(rows, rest, rng)
}

/// A file whose copy with a value of so many bytes has this length.
pub fn filled_for(copy: usize, kind: u16, value: usize, rng: &mut Rng) -> Vec<u8> {
    let rows = rows(rng);
    let kept = rows.iter().filter(|row| row[4..HEAD] != kind.to_le_bytes());
    let rest = copy - HEAD - (HEAD + value) - kept.map(Vec::len).sum::<usize>();
    with_skipped(rows, rest, rng)
}

/// An edition; the width and the style name are set or not.
fn rows(rng: &mut Rng) -> Vec<Vec<u8>> {
    let mut rows = vec![record(EDITION, &[1, 0])];
    if rng.one_in(2) {
        rows.push(record(WIDTH, &[rng.below(256) as u8; 4]));
    }
    if rng.one_in(2) {
        rows.push(record(STYLE, &vec![b'x'; 1 + rng.below(32)]));
    }
    rows
}

fn with_skipped(mut rows: Vec<Vec<u8>>, len: usize, rng: &mut Rng) -> Vec<u8> {
    rows.insert(1 + rng.below(rows.len()), record(50_000, &vec![rng.below(256) as u8; len]));
    rows.concat()
}

/// As many of the smallest records as there can be, in an order that is no matter; one of them longer to make up the length. Now and then the last
/// is the second of its kind.
pub fn many(len: usize, rng: &mut Rng) -> Vec<u8> {
    let mut file = record(EDITION, &[1, 0]);
    if rng.one_in(2) {
        file.extend(record(WIDTH, &[100, 0, 0, 0]));
    }
    let count = (len - file.len()) / 6;
    let spare = (len - file.len()) % 6;
    // steps that share no factor with the number of skipped kinds meet each once
    let (first, step) = (rng.below(32_768), 1 + 2 * rng.below(16_384));
    let kind = |at: usize| FIRST_SKIPPED + ((first + at * step) % 32_768) as u16;
    let (longer, twice) = (rng.below(count), rng.one_in(3));
    for at in 0..count {
        let of = if twice && at + 1 == count { rng.below(count) } else { at };
        file.extend(record(kind(of), &vec![9; if at == longer { spare } else { 0 }]));
    }
    file
}
