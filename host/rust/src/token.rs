//! Tokens, and what the library's words say.

use std::ops::Range;

use crate::error::Error;
use crate::ffi::{Words, kind};

/// What a token is; a literal carries its integer.
#[derive(Clone, Copy, Debug, PartialEq, Eq)]
pub enum Kind {
    LParen,
    RParen,
    At,
    Symbol,
    Int(i128),
}

/// A token with its place in the source, in bytes.
#[derive(Clone, Copy, Debug, PartialEq, Eq)]
pub struct Token {
    pub kind: Kind,
    pub start: usize,
    pub len: usize,
}

impl Token {
    /// The bytes of the source that the token takes.
    pub fn range(&self) -> Range<usize> {
        self.start..self.start + self.len
    }

    /// The place past the token, where the next one is looked for.
    pub fn end(&self) -> usize {
        self.start + self.len
    }
}

/// What a call of the feeder answers.
#[derive(Clone, Copy, Debug, PartialEq, Eq)]
pub enum Answer {
    Token(Token),
    /// The whole piece was consumed, and no token is ready.
    More,
    /// The source is closed and nothing is held.
    End,
    Refused(Error),
}

impl Answer {
    /// What the words of a lexer's or a feeder's answer say.
    #[inline]
    pub(crate) fn of_words(words: Words) -> Answer {
        let [word, place, size, high, low, ..] = words;
        let token = |kind| Answer::Token(Token { kind, start: place as usize, len: size as usize });
        match word {
            kind::END => Answer::End,
            kind::LPAREN => token(Kind::LParen),
            kind::RPAREN => token(Kind::RParen),
            kind::AT => token(Kind::At),
            kind::SYMBOL => token(Kind::Symbol),
            kind::INT => token(Kind::Int(((high as u128) << 64 | low as u128) as i128)),
            kind::REFUSED => Answer::Refused(Error::of_words(words)),
            _ => Answer::More,
        }
    }
}
