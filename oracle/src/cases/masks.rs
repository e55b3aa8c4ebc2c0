//! A binary mask of 128 digits with one wrong digit: at every place, uncut, cut in two at every byte, byte by byte, and read.

use crate::frame::Frame;

const DIGITS: usize = 128;

/// The mask whose digit of this number is wrong.
fn mask(wrong: usize) -> Vec<u8> {
    let digit = |at: usize| if at == wrong { b"23456789abcdefABCDEF"[at % 20] } else { b"01"[at / 3 % 2] };
    b"0b".iter().copied().chain((0..DIGITS).map(digit)).collect()
}

pub fn frames() -> Vec<Frame> {
    let mut frames = Vec::new();
    for wrong in 0..DIGITS {
        let bytes = mask(wrong);
        let len = bytes.len() as u32;
        let mut push = |op: u8, a: u32, b: u32| frames.push(Frame { op, a, b, bytes: bytes.clone() });
        push(b'L', 0, 0);
        push(b'R', 0, 0);
        for cut in 0..=len {
            push(b'F', cut, len);
            push(b'f', cut, len);
        }
        push(b'C', 1, 1);
        push(b'c', 1, 1);
    }
    frames
}
