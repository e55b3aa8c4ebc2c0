//! Every string of up to five pieces over an alphabet where the rules of lexing meet.

use crate::rng::Rng;

const PIECES: &[&str] = &[
    "(", ")", ";", "@", "-", "0x", "0", "12", "ab", "_", "\n", "\r", " ", "\t", "\x0b", "\x0c", "(;", ";)",
    "é",
];
const LONGEST: u32 = 5;

/// The string of this number, shorter ones first; None once all are through.
pub fn nth(number: u64) -> Option<Vec<u8>> {
    let base = PIECES.len() as u64;
    let (mut left, mut len) = (number, 0);
    while left >= base.pow(len) {
        left -= base.pow(len);
        len += 1;
        if len > LONGEST {
            return None;
        }
    }
    let mut source = Vec::new();
    for place in (0..len).rev() {
        source.extend(PIECES[(left / base.pow(place) % base) as usize].bytes());
    }
    Some(source)
}

pub fn random(most: usize, rng: &mut Rng) -> Vec<u8> {
    (0..rng.below(most + 1)).flat_map(|_| rng.pick(PIECES).bytes()).collect()
}
