//! The driver of F, f, C and c: cuts a source into pieces, feeds them and closes, as a host would.

use std::io::Write;

use crate::token::Answer;

pub trait Feeder {
    /// The bytes consumed of the piece, and the answer.
    fn feed(&mut self, piece: &[u8]) -> (usize, Answer);
    fn close(&mut self) -> Answer;
}

/// Feeds all pieces; `show` sees each call. True if nothing was refused.
fn feed_all(
    feeder: &mut dyn Feeder,
    source: &[u8],
    first: usize,
    later: usize,
    show: &mut dyn FnMut(usize, Answer),
) -> bool {
    let mut end = first.min(source.len());
    let mut at = 0;
    loop {
        let (used, answer) = feeder.feed(&source[at..end]);
        show(used, answer);
        at += used;
        match answer {
            Answer::Refused(_) => return false,
            Answer::Token(_) if at < end => continue,
            _ => {}
        }
        if end == source.len() {
            return true;
        }
        (at, end) = (end, (end + later.max(1)).min(source.len()));
    }
}

/// Ops F and f: tokens alone, then the last answer.
pub fn tokens(mut feeder: Box<dyn Feeder>, source: &[u8], first: usize, later: usize, out: &mut Vec<u8>) {
    let open = feed_all(&mut *feeder, source, first, later, &mut |_, answer| {
        if answer != Answer::More {
            answer.line(out)
        }
    });
    while open {
        let answer = feeder.close();
        answer.line(out);
        if !matches!(answer, Answer::Token(_)) {
            return;
        }
    }
}

/// Ops C and c: every call, then an extra feed and an extra close. Op c feeds a byte where C feeds
/// nothing, and does so after the first close that gave a token as well.
pub fn calls(
    mut feeder: Box<dyn Feeder>,
    source: &[u8],
    first: usize,
    later: usize,
    byte: bool,
    out: &mut Vec<u8>,
) {
    let extra: &[u8] = if byte { b"x" } else { b"" };
    let mut open = feed_all(&mut *feeder, source, first, later, &mut |used, answer| fed(used, answer, out));
    let mut first_close = true;
    while open {
        let answer = closed(&mut *feeder, out);
        open = matches!(answer, Answer::Token(_));
        if open && byte && first_close {
            let (used, answer) = feeder.feed(extra);
            fed(used, answer, out);
        }
        first_close = false;
    }
    let (used, answer) = feeder.feed(extra);
    fed(used, answer, out);
    closed(&mut *feeder, out);
}

fn fed(used: usize, answer: Answer, out: &mut Vec<u8>) {
    write!(out, "feed {used} ").expect("a vector takes every byte");
    answer.line(out);
}

fn closed(feeder: &mut dyn Feeder, out: &mut Vec<u8>) -> Answer {
    let answer = feeder.close();
    out.extend(b"close ");
    answer.line(out);
    answer
}
