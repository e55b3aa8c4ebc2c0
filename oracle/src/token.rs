//! Tokens and refusals with their places, and the lines that show them in the probe's language.

use std::io::Write;

/// Document 01's longest source.
pub const LIMIT: usize = 1_048_576;

#[derive(Clone, Copy, Debug, PartialEq, Eq)]
pub enum Kind {
    Open,
    Close,
    At,
    Symbol,
    Int(i128),
}

#[derive(Clone, Copy, Debug, PartialEq, Eq)]
pub struct Token {
    pub kind: Kind,
    pub start: usize,
    pub len: usize,
}

#[derive(Clone, Copy, Debug, PartialEq, Eq)]
pub struct Refusal {
    pub number: u32,
    pub place: usize,
}

pub fn refusal(number: u32, place: usize) -> Refusal {
    Refusal { number, place }
}

/// The tokens up to the end or the first refusal.
#[derive(Clone, Debug, Default, PartialEq, Eq)]
pub struct Lexed {
    pub tokens: Vec<Token>,
    pub refusal: Option<Refusal>,
}

/// What one call of the feeder answers.
#[derive(Clone, Copy, Debug, PartialEq, Eq)]
pub enum Answer {
    Token(Token),
    More,
    End,
    Refused(Refusal),
}

impl Answer {
    pub fn line(&self, out: &mut Vec<u8>) {
        match self {
            Answer::Token(token) => token.line(out),
            Answer::More => out.extend(b"more\n"),
            Answer::End => out.extend(b"end\n"),
            Answer::Refused(refusal) => refusal.line(out),
        }
    }
}

impl Token {
    pub fn line(&self, out: &mut Vec<u8>) {
        let Token { kind, start, len } = *self;
        let written = match kind {
            Kind::Open => writeln!(out, "( {start}"),
            Kind::Close => writeln!(out, ") {start}"),
            Kind::At => writeln!(out, "@ {start}"),
            Kind::Symbol => writeln!(out, "s {start} {len}"),
            Kind::Int(value) => writeln!(out, "i {start} {len} {value}"),
        };
        written.expect("a vector takes every byte");
    }
}

impl Refusal {
    pub fn line(&self, out: &mut Vec<u8>) {
        writeln!(out, "refusal {} at {}", self.number, self.place).expect("a vector takes every byte");
    }
}
