//! Lexing a source that is at hand as a whole.

use std::iter::FusedIterator;

use crate::error::Error;
use crate::ffi;
use crate::token::{Answer, Token};

/// The next token of `source` from the place `at` on, `None` at the end, or a refusal.
///
/// ```
/// use tulbazhik::{Kind, next_token};
///
/// let token = next_token(b"  -0x10 ; ten in hex", 0)?.expect("there is a token");
/// assert_eq!((token.kind, token.start, token.len), (Kind::Int(-16), 2, 5));
/// assert_eq!(next_token(b"  -0x10 ; ten in hex", token.end())?, None);
/// # Ok::<(), tulbazhik::Error>(())
/// ```
#[inline]
pub fn next_token(source: &[u8], at: usize) -> Result<Option<Token>, Error> {
    // SAFETY: the pointer and the length are a slice's, and the answer meets no slice.
    let words = unsafe {
        ffi::written(|answer| ffi::tulbazhik_next_token(source.as_ptr(), source.len(), at, answer))
    };
    match Answer::of_words(words) {
        Answer::Token(token) => Ok(Some(token)),
        Answer::Refused(error) => Err(error),
        Answer::End | Answer::More => Ok(None),
    }
}

/// The tokens of a source in order; a refusal is the last item.
///
/// ```
/// use tulbazhik::{Error, numbers, tokens};
///
/// let source = b"(a 12ab)";
/// let found: Vec<_> = tokens(source).collect();
/// assert_eq!(&source[found[1]?.range()], b"a");
/// assert_eq!(found[2], Err(Error { number: numbers::FOREIGN_DIGIT, place: 5 }));
/// assert_eq!(found.len(), 3);
/// # Ok::<(), Error>(())
/// ```
pub fn tokens(source: &[u8]) -> Tokens<'_> {
    Tokens { source, at: 0, done: false }
}

/// The iterator that [`tokens`] gives.
#[derive(Clone, Debug)]
pub struct Tokens<'s> {
    source: &'s [u8],
    at: usize,
    done: bool,
}

impl Iterator for Tokens<'_> {
    type Item = Result<Token, Error>;

    #[inline]
    fn next(&mut self) -> Option<Self::Item> {
        if self.done {
            return None;
        }
        match next_token(self.source, self.at) {
            Ok(Some(token)) => {
                self.at = token.end();
                Some(Ok(token))
            }
            Ok(None) => {
                self.done = true;
                None
            }
            Err(error) => {
                self.done = true;
                Some(Err(error))
            }
        }
    }
}

impl FusedIterator for Tokens<'_> {}
