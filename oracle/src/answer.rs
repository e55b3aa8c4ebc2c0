//! The lines that a frame is answered with, from any side that can lex, feed, read, check, lay out and take settings from a file.

use std::io::Write;

use crate::document::settings::{self, STYLE, Setting, Value, WIDTH};
use crate::drive::{self, Feeder};
use crate::frame::{Frame, OUTPUT_ROOM, TABLE_ROOM, after_layout};
use crate::token::{Answer, LIMIT, Lexed, Refusal, refusal};
use crate::tree::Tree;
use crate::windows::{self, Calls};

/// A print that succeeds: its text, and how many costs the fits test looks at for it.
pub struct Printed {
    pub text: Vec<u8>,
    pub looked: usize,
}

/// One way to come by the documents' answers. Lengths and rooms are judged here, the same for every side.
pub trait Side {
    /// Tokens from a place within the source; places count from the source's start.
    fn lex(&self, source: &[u8], from: usize) -> Lexed;
    /// A fresh feeder for this source.
    fn feeder(&self, source: &[u8]) -> Box<dyn Feeder>;
    /// The whole table, or the first of 3 to 13.
    fn read(&self, source: &[u8]) -> Result<Vec<u8>, Refusal>;
    /// The table's trees, or the first of 15, 20, 21, 13 and 16; or 22; or 25.
    fn check(&self, table: &[u8]) -> Result<Vec<Tree>, Refusal>;
    /// All trees' text at this width, with its count.
    fn lay_out(&self, trees: &[Tree], width: usize) -> Printed;
    /// A settings file's settings in order, or the place that its 23 names.
    fn settings(&self, file: &[u8]) -> Result<Vec<Setting>, usize>;
}

/// Writes the frame's lines and the closing line with a dot.
pub fn answer(side: &dyn Side, frame: &Frame, out: &mut Vec<u8>) {
    let (source, a, b) = (&frame.bytes[..], frame.a as usize, frame.b as usize);
    match frame.op {
        b'L' => lexed(lex(side, source, a), out),
        b'F' | b'f' => drive::tokens(side.feeder(source), source, a, b, out),
        b'C' => drive::calls(side.feeder(source), source, a, b, false, out),
        b'c' => drive::calls(side.feeder(source), source, a, b, true, out),
        b'R' => result("table", read(side, source, a.min(TABLE_ROOM)), true, out),
        b'P' => result("print", print(side, source, a, b.min(OUTPUT_ROOM)).map(text), true, out),
        b'Q' => counted(print(side, after_layout(source), a, b.min(OUTPUT_ROOM)), out),
        b'W' => {
            let table = read(side, source, TABLE_ROOM);
            let printed = table.and_then(|table| print(side, &table, a, OUTPUT_ROOM));
            result("text", printed.map(text), false, out)
        }
        b'K' => match side.check(source) {
            Ok(_) => out.extend(b"good\n"),
            Err(refusal) => refusal.line(out),
        },
        b'V' => windows::answers(side, &Calls::of(source), a, out),
        b'v' => windows::insides(&Calls::of(source), out),
        b'S' => looked_up(side, a, source.split_at(b.min(source.len())), out),
        b'T' => {
            let copy = settings::copy(side, source, WIDTH, &frame.a.to_le_bytes(), b.min(OUTPUT_ROOM));
            result("file", copy, true, out)
        }
        b't' => {
            let (name, file) = source.split_at(a.min(source.len()));
            result("file", settings::copy(side, file, STYLE, name, b.min(OUTPUT_ROOM)), true, out)
        }
        op => panic!("no op {op}"),
    }
    out.extend(b".\n");
}

fn lex(side: &dyn Side, source: &[u8], from: usize) -> Lexed {
    let refused = if source.len() > LIMIT {
        refusal(1, LIMIT)
    } else if from > source.len() {
        refusal(2, source.len())
    } else {
        return side.lex(source, from);
    };
    Lexed { tokens: Vec::new(), refusal: Some(refused) }
}

fn lexed(lexed: Lexed, out: &mut Vec<u8>) {
    lexed.tokens.iter().for_each(|token| token.line(out));
    lexed.refusal.map_or(Answer::End, Answer::Refused).line(out);
}

/// Reading with a room: 14 comes last and names the whole size.
pub fn read(side: &dyn Side, source: &[u8], room: usize) -> Result<Vec<u8>, Refusal> {
    if source.len() > LIMIT {
        return Err(refusal(1, LIMIT));
    }
    let table = side.read(source)?;
    if table.len() > room { Err(refusal(14, table.len())) } else { Ok(table) }
}

/// Printing with a room: 18 comes last and names the whole size.
pub fn print(side: &dyn Side, table: &[u8], width: usize, room: usize) -> Result<Printed, Refusal> {
    let trees = side.check(table)?;
    let printed = side.lay_out(&trees, width);
    let len = printed.text.len();
    if len > room { Err(refusal(18, len)) } else { Ok(printed) }
}

fn text(printed: Printed) -> Vec<u8> {
    printed.text
}

/// How many bytes, and a line of them in hex.
pub fn shown(word: &str, bytes: &[u8], out: &mut Vec<u8>) {
    writeln!(out, "{word} {}", bytes.len()).expect("a vector takes every byte");
    let digit = |half: u8| b"0123456789abcdef"[half as usize];
    out.extend(bytes.iter().flat_map(|byte| [digit(byte >> 4), digit(byte & 15)]));
    out.push(b'\n');
}

/// How many costs the fits test looked at.
pub fn looked(count: usize, out: &mut Vec<u8>) {
    writeln!(out, "looked {count}").expect("a vector takes every byte");
}

/// The bytes and the count, or the refusal alone: a refused print reports nothing.
fn counted(result: Result<Printed, Refusal>, out: &mut Vec<u8>) {
    match result {
        Ok(printed) => {
            shown("print", &printed.text, out);
            looked(printed.looked, out);
        }
        Err(refusal) => refusal.line(out),
    }
    out.extend(b"kept\n");
}

/// The bytes or the refusal. No correct answer touches a byte beyond its own, so it is always `kept`.
fn result(word: &str, result: Result<Vec<u8>, Refusal>, rooms: bool, out: &mut Vec<u8>) {
    match result {
        Ok(bytes) => shown(word, &bytes, out),
        Err(refusal) => refusal.line(out),
    }
    if rooms {
        out.extend(b"kept\n");
    }
}

/// The width, the style name, or, for any other number, where that stands; a refusal's line says whose file is at fault.
fn looked_up(side: &dyn Side, asked: usize, files: (&[u8], &[u8]), out: &mut Vec<u8>) {
    let (project, house) = files;
    let kind = if asked == 0 { WIDTH } else { STYLE };
    let written = match (settings::look_up(side, kind, project, house), asked) {
        (Ok(Value { bytes, .. }), 1) => return shown("style", &bytes, out),
        (Ok(Value { bytes, .. }), 0) => {
            let width = bytes.iter().rev().fold(0u32, |n, byte| n << 8 | *byte as u32);
            writeln!(out, "width {width}")
        }
        (Ok(Value { whose, place, bytes }), _) => writeln!(out, "part {whose:?} {place} {}", bytes.len()),
        (Err((Refusal { number, place }, whose)), _) => {
            writeln!(out, "refusal {number} at {place} {whose:?}")
        }
    };
    written.expect("a vector takes every byte");
}
