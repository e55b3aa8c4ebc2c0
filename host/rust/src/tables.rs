//! Reading a source into a table and printing a table, into rooms that are lent or that grow.

use crate::error::Error;
use crate::ffi::{self, Words, kind};
use crate::numbers;

/// A text, and what it took to lay it out.
#[derive(Clone, Debug, PartialEq, Eq)]
pub struct Text {
    pub bytes: Vec<u8>,
    /// How many lists the fits test looked at.
    ///
    /// A list goes on one line if it fits there, with all that is inside it. To see whether it does, the cost that it stores is
    /// looked at; nothing where the line is already too long. In a list that does not fit, each list is then tested in its turn.
    ///
    /// So a number far below that of the table's lists says that most stand inside lists that fit. It is never above the number of
    /// the lists, however deep they stand.
    pub looked: u64,
}

/// A text that was written into a room: its length, and [`looked`](Text::looked) as a text has it.
#[derive(Clone, Copy, Debug, PartialEq, Eq)]
pub struct Printed {
    pub len: usize,
    pub looked: u64,
}

/// Reads the trees of `source` into a table in `room` and gives the table's length. Where the room is too small, the refusal is
/// 14, its place is the bytes needed, and the room stays as it was.
pub fn read_into(source: &[u8], room: &mut [u8]) -> Result<usize, Error> {
    // SAFETY: both pointers and lengths are slices', which do not meet, for one of them is `&mut`; the answer meets neither.
    let words = unsafe {
        ffi::written(|answer| {
            ffi::tulbazhik_read(source.as_ptr(), source.len(), room.as_mut_ptr(), room.len(), answer)
        })
    };
    length_of(words)
}

/// The table of a source's trees. Each list's record stores the item count and the list's cost.
///
/// ```
/// let table = tulbazhik::read(b"x @ (a)")?;
/// let (binding, symbol) = ([7, 0, 0, 0, 3, 0, b'x'], [7, 0, 0, 0, 1, 0, b'a']);
/// let list = [14, 0, 0, 0, 5, 0, 1, 0, 0, 0, 3, 0, 0, 0]; // one item, cost 3
/// assert_eq!(table, [&binding[..], &list, &symbol].concat());
/// # Ok::<(), tulbazhik::Error>(())
/// ```
pub fn read(source: &[u8]) -> Result<Vec<u8>, Error> {
    grown(2 * source.len() + 64, numbers::TABLE_ROOM, |room| read_into(source, room))
}

/// Prints `table` at a width into `room` and gives the text's length and count. Where the room is too small, the refusal is 18,
/// its place is the bytes needed, and the room stays as it was.
pub fn print_into(table: &[u8], width: u32, room: &mut [u8]) -> Result<Printed, Error> {
    // SAFETY: as in `read_into`.
    let words = unsafe {
        ffi::written(|answer| {
            ffi::tulbazhik_print(table.as_ptr(), table.len(), width, room.as_mut_ptr(), room.len(), answer)
        })
    };
    let [.., looked, _] = words;
    Ok(Printed { len: length_of(words)?, looked })
}

/// The text of a table at a width.
///
/// A table of version 3 or before, whose lists are of kind 4 and store no cost, is refused with 20 at its first list: make it anew
/// by reading its source again, or, where that is gone, what version 3 prints of it.
///
/// ```
/// let mut table = tulbazhik::read(b"(rule (a b) c)")?;
/// let text = tulbazhik::print(&table, 14)?;
/// assert_eq!(text.bytes, b"(rule (a b) c)\n");
/// assert_eq!(text.looked, 1); // nothing is tested inside a list that fits
///
/// let text = tulbazhik::print(&table, 13)?;
/// assert_eq!(text.bytes, b"(rule\n    (a b)\n    c\n)\n");
/// assert_eq!(text.looked, 2); // the list, which is too long by one, and `(a b)`
///
/// // a table that the link cut off between two records
/// let error = tulbazhik::print(&table[..table.len() - 7], 14).expect_err("an item is missing");
/// assert_eq!(error.to_string(), "refusal 22 at 52: trees are missing at the table's end");
///
/// // one in which the cost of `(a b)`, at 24, was changed from 5 to 6
/// table[24 + 10] = 6;
/// let error = tulbazhik::print(&table, 14).expect_err("it is 5");
/// assert_eq!(error.to_string(), "refusal 25 at 24: a list's stored cost is wrong");
/// # Ok::<(), tulbazhik::Error>(())
/// ```
pub fn print(table: &[u8], width: u32) -> Result<Text, Error> {
    let mut looked = 0;
    let bytes = grown(table.len() + 64, numbers::PRINT_ROOM, |room| {
        let printed = print_into(table, width, room)?;
        looked = printed.looked;
        Ok(printed.len)
    })?;
    Ok(Text { bytes, looked })
}

/// The length of what was written, or the refusal.
pub(crate) fn length_of(words: Words) -> Result<usize, Error> {
    match words {
        [kind::DONE, _, length, ..] => Ok(length as usize),
        _ => Err(Error::of_words(words)),
    }
}

/// Tries a room, and once more with the room that a refusal for want of room names.
pub(crate) fn grown(
    first: usize,
    want: u8,
    mut write: impl FnMut(&mut [u8]) -> Result<usize, Error>,
) -> Result<Vec<u8>, Error> {
    let mut room = vec![0; first];
    let len = match write(&mut room) {
        Err(Error { number, place }) if number == want && place > room.len() => {
            room.resize(place, 0);
            write(&mut room)?
        }
        done => done?,
    };
    room.truncate(len);
    Ok(room)
}
