//! Lexing a source as it comes, in pieces of any size.

use std::fmt;
use std::io::{self, Read};

use crate::error::Error;
use crate::ffi::{self, Words};
use crate::token::{Answer, Token};

/// The state of a source that is fed in pieces: 64 bytes, plain data.
///
/// ```
/// use tulbazhik::{Answer, Feeder, Kind};
///
/// let mut feeder = Feeder::new();
/// assert_eq!(feeder.feed(b"ru"), (2, Answer::More));
/// let (used, answer) = feeder.feed(b"le)");
/// assert_eq!(used, 2); // `)` only ends the symbol: it is fed again
/// let Answer::Token(token) = answer else { panic!() };
/// assert_eq!((token.kind, token.range()), (Kind::Symbol, 0..4));
/// assert!(matches!(feeder.feed(b")"), (1, Answer::Token(_))));
/// assert_eq!(feeder.close(), Answer::End);
/// ```
#[derive(Clone, Debug, PartialEq, Eq)]
pub struct Feeder {
    state: Words,
}

impl Default for Feeder {
    fn default() -> Self {
        Feeder::new()
    }
}

impl Feeder {
    /// The state before the first byte.
    pub fn new() -> Feeder {
        // SAFETY: the state is lent to this call alone.
        Feeder { state: unsafe { ffi::written(|state| ffi::tulbazhik_fresh(state)) } }
    }

    /// The bytes consumed of `piece`, and the answer. What was not consumed is fed again.
    #[inline]
    pub fn feed(&mut self, piece: &[u8]) -> (usize, Answer) {
        let state = &mut self.state;
        // SAFETY: the pointer and the length are a slice's; the state and the answer are lent to nobody else.
        let words =
            unsafe { ffi::written(|answer| ffi::tulbazhik_feed(state, piece.as_ptr(), piece.len(), answer)) };
        (words[5] as usize, Answer::of_words(words))
    }

    /// The source's end: the held token, the end, or a refusal.
    pub fn close(&mut self) -> Answer {
        let state = &mut self.state;
        // SAFETY: as in `feed`.
        Answer::of_words(unsafe { ffi::written(|answer| ffi::tulbazhik_close(state, answer)) })
    }

    /// The bytes consumed so far.
    pub fn place(&self) -> usize {
        self.state[1] as usize
    }

    /// Where a symbol or literal begins that may go on in the next piece.
    fn held(&self) -> Option<usize> {
        matches!(self.state[0], 2 | 3 | 4 | 6 | 7).then_some(self.state[2] as usize)
    }

    /// The tokens of all that a reader gives, in chunks of 64 KiB.
    ///
    /// ```
    /// use tulbazhik::Feeder;
    ///
    /// let mut tokens = Feeder::new().tokens_from(&b"(decl lower (Inst))"[..]);
    /// let mut words = Vec::new();
    /// while let Some(token) = tokens.next() {
    ///     words.push(String::from_utf8_lossy(tokens.spelling(&token?)).into_owned());
    /// }
    /// assert_eq!(words, ["(", "decl", "lower", "(", "Inst", ")", ")"]);
    /// # Ok::<(), tulbazhik::FeedError>(())
    /// ```
    pub fn tokens_from<R: Read>(self, reader: R) -> TokensFrom<R> {
        self.tokens_from_in(reader, 1 << 16)
    }

    /// The same in chunks of a size of one's own, at least one byte.
    pub fn tokens_from_in<R: Read>(self, reader: R, chunk: usize) -> TokensFrom<R> {
        let from = self.place();
        TokensFrom {
            reader,
            feeder: self,
            window: Vec::new(),
            from,
            fed: 0,
            chunk: chunk.max(1),
            ended: false,
            done: false,
        }
    }
}

/// The iterator that [`Feeder::tokens_from`] gives. It keeps a chunk and the token that is held over it.
///
/// An error of the reader is an item and ends nothing: the state and the bytes are kept, and the next call asks the reader again,
/// so that a reader that fails for good gives its error for ever. Only `Interrupted` is no item: the reader is asked again at once.
/// A refusal is the last item.
#[derive(Debug)]
pub struct TokensFrom<R> {
    reader: R,
    feeder: Feeder,
    /// Bytes of the source from the place `from` on, of which the first `fed` were consumed.
    window: Vec<u8>,
    from: usize,
    fed: usize,
    chunk: usize,
    ended: bool,
    done: bool,
}

impl<R: Read> TokensFrom<R> {
    /// The bytes of the token that `next` gave last; of an earlier one nothing.
    pub fn spelling(&self, token: &Token) -> &[u8] {
        let start = token.start.wrapping_sub(self.from);
        self.window.get(start..start.saturating_add(token.len)).unwrap_or_default()
    }

    /// The feeder, the reader and the bytes that stand between them, so that nothing is lost where a caller goes on by other means.
    ///
    /// ```
    /// use std::io::{Cursor, Read};
    /// use tulbazhik::{Feeder, Parts};
    ///
    /// let mut tokens = Feeder::new().tokens_from_in(&b"(decl lower)"[..], 8);
    /// let decl = tokens.nth(1).expect("there is a second token")?;
    /// assert_eq!(tokens.spelling(&decl), b"decl");
    /// let Parts { feeder, reader, held, rest } = tokens.into_parts();
    /// assert_eq!((&held[..], &rest[..], reader), (&b""[..], &b" lo"[..], &b"wer)"[..]));
    /// let mut tokens = feeder.tokens_from(Cursor::new(rest).chain(reader));
    /// let lower = tokens.next().expect("there is a third token")?;
    /// assert_eq!(tokens.spelling(&lower), b"lower");
    /// # Ok::<(), tulbazhik::FeedError>(())
    /// ```
    pub fn into_parts(mut self) -> Parts<R> {
        let rest = self.window.split_off(self.fed);
        let held = match self.feeder.held() {
            Some(start) => self.window.split_off(start.saturating_sub(self.from).min(self.fed)),
            None => Vec::new(),
        };
        Parts { feeder: self.feeder, reader: self.reader, held, rest }
    }

    /// A chunk more, once what was consumed and is not held is let go.
    fn fill(&mut self) -> io::Result<()> {
        let keep = self.feeder.held().unwrap_or(self.from + self.fed);
        let gone = keep.saturating_sub(self.from).min(self.fed);
        self.window.drain(..gone);
        self.from += gone;
        self.fed -= gone;
        let old = self.window.len();
        self.window.resize(old + self.chunk, 0);
        let got = loop {
            match self.reader.read(&mut self.window[old..]) {
                Err(error) if error.kind() == io::ErrorKind::Interrupted => {}
                got => break got,
            }
        };
        self.window.truncate(old + *got.as_ref().unwrap_or(&0));
        self.ended = got? == 0;
        Ok(())
    }
}

impl<R: Read> Iterator for TokensFrom<R> {
    type Item = Result<Token, FeedError>;

    fn next(&mut self) -> Option<Self::Item> {
        while !self.done {
            let answer = if self.fed < self.window.len() {
                let (used, answer) = self.feeder.feed(&self.window[self.fed..]);
                self.fed += used;
                answer
            } else if self.ended {
                self.feeder.close()
            } else {
                match self.fill() {
                    Ok(()) => continue,
                    // not the end: a reader that would block has more to give, and a token may be held
                    Err(error) => return Some(Err(FeedError::Read(error))),
                }
            };
            match answer {
                Answer::Token(token) => return Some(Ok(token)),
                Answer::More => {}
                Answer::End => self.done = true,
                Answer::Refused(error) => {
                    self.done = true;
                    return Some(Err(FeedError::Refused(error)));
                }
            }
        }
        None
    }
}

/// What [`TokensFrom::into_parts`] gives back. The feeder's [`place`](Feeder::place) and the length of `rest` make up all that the reader gave.
#[derive(Debug)]
pub struct Parts<R> {
    pub feeder: Feeder,
    pub reader: R,
    /// The first bytes of a token that the next bytes may go on: the feeder has consumed them, and they are here for the token's
    /// spelling. Not to be fed again.
    pub held: Vec<u8>,
    /// Bytes that the reader gave and the feeder has not consumed. To be fed before what the reader gives next.
    pub rest: Vec<u8>,
}

/// Why [`TokensFrom`] has no token: the reader failed and may be asked again, or the source was refused.
#[derive(Debug)]
pub enum FeedError {
    Read(io::Error),
    Refused(Error),
}

impl fmt::Display for FeedError {
    fn fmt(&self, f: &mut fmt::Formatter<'_>) -> fmt::Result {
        match self {
            FeedError::Read(error) => error.fmt(f),
            FeedError::Refused(error) => error.fmt(f),
        }
    }
}

impl std::error::Error for FeedError {}
