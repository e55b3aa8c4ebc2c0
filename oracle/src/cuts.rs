//! Sources that a stored sample cuts in two at every byte, and byte by byte: what may be held when a piece ends.

use crate::frame::Frame;

/// Comments, literals, prefixes, signs and parentheses, each alone and beside what may follow it.
const SOURCES: &[&str] = &[
    "(;)", "(;;)", "(;;)x", "(;(;;);)x", "(;(;;)", "(;(;", "(; ;", "(; (", "(; ( ;)a", "(;;;)a", "(;();)b", "(;a;)(;b;)c", "(;\n;)\n)",
    "((;;)", "((;;)a)", "(;)(;;)a", "(;(;(;;);););)z", "(a(;", "a(;;)b", "1(;;)2", "-(;;)1", "@(;;)@", ";", ";a", ";a\nb", ";a\rb", ";;\n;;\nc",
    ";(;\n;)a", "a;b\nc", "1;2\n3", "(;\x0c;)a", ";\x0c\na", "-", "--", "-1", "-0", "-_", "-_1", "- 1", "-a", "-x", "-)", "-;\n1", "-(", "0", "00", "01",
    "0_", "0_1", "0x", "0X", "0o", "0b", "0xg", "0x1", "0XfF", "0o7", "0o8", "0b1", "0b2", "0B_1_", "0x_", "00x1", "0_b1", "00b1", "-0x", "-0x1", "-0b1", "-0o9",
    "12ab", "12ab ", "12xyz", "1_0-2", "1a2", "1-", "1@2", "1(2", "1)2", "12\x0c", "9g", "_", "_1", "a", "ab", "a b", "a\tb", "a\nb", "a\rb", "a\x0b", "a\x0cb", "\x0c",
    "\x0ca", "a(", "a)", "a@", "a;", "a-1", "a0x1", "()", "(()", "(a)", "( a )", "(\n)", "x @ y", "x@y", "@", "@@", ")", "))", "x @ (a)", "x @ )", "é", "(é)", "-é", "0é",
    "(rule 1 (f x @ (g _)) 0x10)",
];

/// Each source fed in two pieces at every cut, by value and lent by turns, and byte by byte with every call shown.
pub fn frames() -> Vec<Frame> {
    let mut frames = Vec::new();
    for source in SOURCES {
        let bytes = source.as_bytes();
        for cut in 0..=bytes.len() {
            let op = if cut % 2 == 0 { b'F' } else { b'f' };
            frames.push(Frame { op, a: cut as u32, b: bytes.len() as u32, bytes: bytes.to_vec() });
        }
        for op in [b'C', b'c'] {
            frames.push(Frame { op, a: 1, b: 1, bytes: bytes.to_vec() });
        }
    }
    frames
}
