//! Comments: nested, closed, left open, and cut in the middle of an opener or a closer.

use crate::rng::Rng;

const INSIDE: &[&str] =
    &["", " ", ";", ")", "(", "a", "12ab", "\n", "\r", "\x0c", "@", "(a)", ";;", "((", "é", "_"];

pub fn source(rng: &mut Rng) -> Vec<u8> {
    let mut text = String::new();
    for _ in 0..1 + rng.below(4) {
        match rng.below(6) {
            0 => text.push_str(rng.pick(&["a", "x @ y", "(b 1)", "7", ")", "@", "\x0c", "12ab"])),
            1 => {
                text.push(';');
                inside(&mut text, rng);
                text.push_str(rng.pick(&["\n", "\r", "\r\n", ""]));
            }
            _ => block(&mut text, 1 + rng.below(5), rng),
        }
        text.push_str(rng.pick(&["", "", " ", "\n"]));
    }
    let mut source = text.into_bytes();
    if rng.one_in(4) {
        source.truncate(rng.below(source.len() + 1));
    }
    source
}

fn inside(text: &mut String, rng: &mut Rng) {
    for _ in 0..rng.below(4) {
        text.push_str(rng.pick(INSIDE));
    }
}

/// A comment of this depth, more or less: openers and closers mostly pair up.
fn block(text: &mut String, depth: usize, rng: &mut Rng) {
    text.push_str("(;");
    inside(text, rng);
    if depth > 1 {
        (0..1 + rng.below(2)).for_each(|_| block(text, depth - 1, rng));
        inside(text, rng);
    }
    text.push_str(match rng.below(24) {
        0 => "",
        1 => ";",
        2 => ")",
        3 => ";);)",
        _ => ";)",
    });
}
