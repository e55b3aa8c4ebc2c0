//! Refusals: a number and a place, and words for them.

use std::{fmt, io};

use crate::ffi::Words;
use crate::numbers;

/// A refusal. No refusal changes a lent byte.
///
/// ```
/// use tulbazhik::numbers;
///
/// let source = b"(rule\n  (f 12ab))";
/// let error = tulbazhik::tokens(source).find_map(Result::err).expect("12ab has a foreign digit");
/// assert_eq!((error.number, error.place), (numbers::FOREIGN_DIGIT, 13));
/// assert_eq!(error.to_string(), "refusal 6 at 13: a digit is foreign to the literal's radix");
/// assert_eq!(
///     error.within(source).to_string(),
///     "refusal 6 at line 2, column 8: a digit is foreign to the literal's radix\n  |   (f 12ab))\n  |        ^\n",
/// );
/// ```
#[derive(Clone, Copy, Debug, PartialEq, Eq)]
pub struct Error {
    /// One of [`numbers`].
    pub number: u8,
    /// A place in the source, the table or the settings file; for 1 its limit, for 14 and 18 the bytes needed, for 26 the name's
    /// length.
    pub place: usize,
}

impl Error {
    /// The words of a refusal are the same in every function's answer.
    #[inline]
    pub(crate) fn of_words([_, place, number, ..]: Words) -> Error {
        Error { number: number as u8, place: place as usize }
    }

    /// What the number says.
    pub fn meaning(&self) -> &'static str {
        numbers::meaning(self.number)
    }

    /// The same for a reader who has the source: line, column, and a caret under the place. For refusals of a source, 2 to 13.
    pub fn within<'s>(&self, source: &'s [u8]) -> Within<'s> {
        Within { error: *self, source }
    }
}

impl fmt::Display for Error {
    fn fmt(&self, f: &mut fmt::Formatter<'_>) -> fmt::Result {
        write!(f, "refusal {} at {}: {}", self.number, self.place, self.meaning())
    }
}

impl std::error::Error for Error {}

/// For readers and writers: of the kind `InvalidData`, with the refusal inside.
impl From<Error> for io::Error {
    fn from(error: Error) -> io::Error {
        io::Error::new(io::ErrorKind::InvalidData, error)
    }
}

/// A refusal with its source, to be shown; [`Error::within`] makes it.
#[derive(Clone, Copy, Debug)]
pub struct Within<'s> {
    error: Error,
    source: &'s [u8],
}

impl Within<'_> {
    /// The place's line, counted from 1.
    pub fn line(&self) -> usize {
        1 + self.source[..self.place()].iter().filter(|byte| **byte == b'\n').count()
    }

    /// The place's column, counted from 1, in characters.
    pub fn column(&self) -> usize {
        1 + self.before().chars().count()
    }

    fn place(&self) -> usize {
        self.error.place.min(self.source.len())
    }

    /// The place where the line begins.
    fn begin(&self) -> usize {
        let before = &self.source[..self.place()];
        before.iter().rposition(|byte| *byte == b'\n').map_or(0, |at| at + 1)
    }

    fn before(&self) -> String {
        String::from_utf8_lossy(&self.source[self.begin()..self.place()]).into_owned()
    }
}

impl fmt::Display for Within<'_> {
    fn fmt(&self, f: &mut fmt::Formatter<'_>) -> fmt::Result {
        let Error { number, .. } = self.error;
        let rest = &self.source[self.begin()..];
        let end = rest.iter().position(|byte| *byte == b'\n').unwrap_or(rest.len());
        let line = String::from_utf8_lossy(&rest[..end]);
        // a tab is kept, so that the caret stands under its byte however wide a tab is
        let pad: String = self.before().chars().map(|c| if c == '\t' { c } else { ' ' }).collect();
        writeln!(
            f,
            "refusal {number} at line {}, column {}: {}",
            self.line(),
            self.column(),
            self.error.meaning()
        )?;
        writeln!(f, "  | {}", line.trim_end_matches('\r'))?;
        writeln!(f, "  | {pad}^")
    }
}
