//! Printing a table through windows: a print that goes on from call to call, where there is no room for the whole text.

use std::io::{self, ErrorKind, Read, Write};

use crate::error::Error;
use crate::ffi::{self, PrintWords, kind};

/// A table that is printed at a width, window by window. The windows joined, whatever their lengths, are the bytes of
/// [`print`](crate::print). It never needs room for the text, so that a refusal is never 18.
///
/// ```
/// use tulbazhik::Printing;
///
/// let table = tulbazhik::read(b"(rule (a b) c)")?;
/// let (mut printing, mut window) = (Printing::new(&table, 100), [0; 8]);
/// assert_eq!(printing.fill(&mut window)?, Some(8));
/// assert_eq!(&window, b"(rule (a");
/// assert_eq!(printing.fill(&mut window)?, Some(7));
/// assert_eq!(&window, b" b) c)\na"); // the last byte is the first window's
/// assert_eq!(printing.fill(&mut window)?, None);
/// assert_eq!(printing.looked(), Some(1));
/// # Ok::<(), tulbazhik::Error>(())
/// ```
///
/// It is a reader, so that [`io::copy`] and all else that reads can have the text:
///
/// ```
/// use std::io::Read;
///
/// let table = tulbazhik::read(b"(rule (a b) c)").expect("no refusal");
/// let mut text = String::new();
/// tulbazhik::Printing::new(&table, 13).read_to_string(&mut text)?;
/// assert_eq!(text, "(rule\n    (a b)\n    c\n)\n");
/// # Ok::<(), std::io::Error>(())
/// ```
#[derive(Clone, Debug, PartialEq, Eq)]
pub struct Printing<'t> {
    table: &'t [u8],
    width: u32,
    state: PrintWords,
    /// What the end came with.
    looked: Option<u64>,
}

impl<'t> Printing<'t> {
    /// A print that has not begun.
    pub fn new(table: &'t [u8], width: u32) -> Printing<'t> {
        Printing::resume(table, width, [0; 72])
    }

    /// The print whose [`state`](Printing::state) was stored. It goes on where that one stood if the table and the width are
    /// that one's; if they are not, or if no print gave the state, then what it prints is left open, and nothing worse happens.
    ///
    /// ```
    /// use tulbazhik::Printing;
    ///
    /// let (table, mut window) = (tulbazhik::read(b"(a b)")?, [0; 3]);
    /// let mut printing = Printing::new(&table, 100);
    /// printing.fill(&mut window)?;
    /// let stored = printing.state();
    ///
    /// assert_eq!(Printing::resume(&table, 100, stored).fill(&mut window)?, Some(3));
    /// assert_eq!(&window, b"b)\n");
    /// # Ok::<(), tulbazhik::Error>(())
    /// ```
    pub fn resume(table: &'t [u8], width: u32, state: [u64; 72]) -> Printing<'t> {
        Printing { table, width, state, looked: None }
    }

    /// Where the print stands: plain data, to be stored or sent, for a print by the same version. Zeros before the first call.
    pub fn state(&self) -> [u64; 72] {
        self.state
    }

    /// How many lists the fits test looked at: the number that [`print`](crate::print) gives as [`looked`](crate::Text::looked).
    /// None before the end was answered.
    ///
    /// ```
    /// use std::io;
    ///
    /// let table = tulbazhik::read(b"(rule (a b) c)").expect("no refusal");
    /// let (mut printing, mut out) = (tulbazhik::Printing::new(&table, 13), Vec::new());
    /// io::copy(&mut printing, &mut out)?;
    /// assert_eq!(printing.looked(), Some(2));
    /// # Ok::<(), io::Error>(())
    /// ```
    pub fn looked(&self) -> Option<u64> {
        self.looked
    }

    /// Puts the next bytes of the text into the front of `window` and gives their number: as many as the window holds or as are
    /// left. None at the end, then and at each later call. A refusal can only come at the first call, and changes nothing.
    pub fn fill(&mut self, window: &mut [u8]) -> Result<Option<usize>, Error> {
        let state = &mut self.state;
        // SAFETY: the pointers and lengths are slices', which do not meet, for one of them is `&mut`; the state and the answer
        // are lent to nobody else.
        let words = unsafe {
            ffi::written(|answer| {
                ffi::tulbazhik_fill(
                    self.table.as_ptr(),
                    self.table.len(),
                    self.width,
                    state,
                    window.as_mut_ptr(),
                    window.len(),
                    answer,
                )
            })
        };
        match words {
            [kind::DONE, _, length, ..] => Ok(Some(length as usize)),
            [kind::END, .., looked, _] => {
                self.looked = Some(looked);
                Ok(None)
            }
            _ => Err(Error::of_words(words)),
        }
    }

    /// Writes the rest of the text to `out` and gives its length, with a window of 4 KiB.
    ///
    /// An error of the writer loses nothing: the next call goes on with the first byte that the writer did not take. Only
    /// `Interrupted` is no error: the writer is asked again at once. A refusal is an error of the kind `InvalidData`, and
    /// nothing was written.
    ///
    /// ```
    /// use std::io::ErrorKind;
    /// use tulbazhik::{Error, Printing, numbers};
    ///
    /// let table = tulbazhik::read(b"(rule (a b) c)").expect("no refusal");
    /// let mut out = Vec::new();
    /// assert_eq!(Printing::new(&table, 100).write_to(&mut out)?, 15);
    /// assert_eq!(out, b"(rule (a b) c)\n");
    ///
    /// let error = Printing::new(&table[..52], 100).write_to(&mut out).expect_err("an item is missing");
    /// assert_eq!(error.kind(), ErrorKind::InvalidData);
    /// let error: Error = error.downcast().expect("it carries the refusal");
    /// assert_eq!((error.number, error.place), (numbers::MISSING_TREES, 52));
    /// # Ok::<(), std::io::Error>(())
    /// ```
    pub fn write_to<W: Write + ?Sized>(&mut self, out: &mut W) -> io::Result<u64> {
        let (mut window, mut sum) = ([0; 4096], 0);
        loop {
            let before = self.state;
            let Some(len) = self.fill(&mut window)? else { return Ok(sum) };
            let mut taken = 0;
            while taken < len {
                match out.write(&window[taken..len]) {
                    Ok(n) if n > 0 => taken += n,
                    Err(error) if error.kind() == ErrorKind::Interrupted => {}
                    failed => {
                        // back, and on by what was taken: the text does not depend on the windows' lengths
                        self.state = before;
                        self.fill(&mut window[..taken])?;
                        failed?;
                        return Err(ErrorKind::WriteZero.into());
                    }
                }
            }
            sum += len as u64;
        }
    }
}

/// The end is 0 bytes, and a refusal an error of the kind `InvalidData` that carries the [`Error`]. An empty buffer gets 0 bytes
/// and asks nothing.
impl Read for Printing<'_> {
    fn read(&mut self, into: &mut [u8]) -> io::Result<usize> {
        if into.is_empty() {
            return Ok(0);
        }
        Ok(self.fill(into)?.unwrap_or(0))
    }
}
