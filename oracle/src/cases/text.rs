//! Text that looks like ISLE, damaged copies of it, and bytes of any kind.

use crate::rng::Rng;

const WORDS: &[&str] = &[
    "rule", "decl", "type", "extern", "a", "x", "_", "$I64", "=q", "has_type", "Opcode.A", "é", "x86_add",
    "i32.-1", "u64", "ty", "+", "\u{b}v", "if-let", "日本",
];
const NUMBERS: &[&str] = &[
    "0",
    "1",
    "-1",
    "0x10",
    "0b1_01",
    "0o17",
    "12_34",
    "-0xff",
    "0xFFFF_FFFF_FFFF_FFFF",
    "128",
    "0x8000_0000_0000_0000_0000_0000_0000_0000",
];
const BETWEEN: &[&str] = &[" ", " ", " ", "\n", "\n  ", "\t", "\r\n", " ;; why\n", " (; c ;) ", "(;(;;);)"];

pub fn isle(rng: &mut Rng) -> Vec<u8> {
    let mut text = String::new();
    for _ in 0..rng.below(4) {
        tree(&mut text, 1 + rng.below(5), rng);
        text.push_str(rng.pick(BETWEEN));
    }
    text.into_bytes()
}

fn tree(text: &mut String, depth: usize, rng: &mut Rng) {
    match rng.below(10) {
        0 | 1 => text.push_str(rng.pick(WORDS)),
        2 => text.push_str(rng.pick(NUMBERS)),
        3 => {
            text.push_str(rng.pick(WORDS));
            text.push_str(rng.pick(&[" @ ", "@", " @", "@ ", " (;;)@\n"]));
            if depth > 0 { tree(text, depth - 1, rng) } else { text.push('z') }
        }
        _ if depth == 0 => text.push_str(rng.pick(WORDS)),
        _ => {
            text.push('(');
            for i in 0..rng.below(6) {
                if i > 0 {
                    text.push_str(rng.pick(BETWEEN));
                }
                tree(text, depth - 1, rng);
            }
            text.push(')');
        }
    }
}

/// Bytes that decide something, for changes and insertions.
const TELLING: &[u8] = b"()();;@@-_09afxXoObBg \t\n\r\x0b\x0c\x00\x7f\x80\xc3\xff";

/// One to three bytes changed, left out, put in, or the end cut off.
pub fn damaged(mut source: Vec<u8>, rng: &mut Rng) -> Vec<u8> {
    for _ in 0..1 + rng.below(3) {
        let at = rng.below(source.len() + 1);
        let byte = rng.pick(TELLING);
        match rng.below(5) {
            0 => source.truncate(at),
            1 | 2 => source.insert(at, byte),
            3 if at < source.len() => source[at] = byte,
            4 if at < source.len() => drop(source.remove(at)),
            _ => {}
        }
    }
    source
}

/// Bytes of any kind, mostly telling ones, so mostly no UTF-8.
pub fn bytes(rng: &mut Rng) -> Vec<u8> {
    let any = rng.one_in(4);
    (0..rng.below(24)).map(|_| if any { rng.next() as u8 } else { rng.pick(TELLING) }).collect()
}

/// A part of real text, at times damaged.
pub fn slice(real: &[u8], rng: &mut Rng) -> Vec<u8> {
    let from = rng.below(real.len());
    let to = (from + rng.below(600)).min(real.len());
    let part = real[from..to].to_vec();
    if rng.one_in(3) { damaged(part, rng) } else { part }
}
