//! The library's functions as host/include/tulbazhik.h declares them. The compiler checks none of this; host/check compares the numbers.

use std::mem::MaybeUninit;

/// The words of an answer, and of a feeder's state.
pub type Words = [u64; 8];

/// The words of the state of a print through windows; zeros are the fresh state.
pub type PrintWords = [u64; 72];

/// Word 0 of an answer: all that the header has, used here or not.
#[allow(dead_code)]
pub mod kind {
    pub const END: u64 = 0;
    pub const LPAREN: u64 = 1;
    pub const RPAREN: u64 = 2;
    pub const AT: u64 = 3;
    pub const SYMBOL: u64 = 4;
    pub const INT: u64 = 5;
    pub const REFUSED: u64 = 6;
    pub const MORE: u64 = 7;
    pub const DONE: u64 = 8;
}

/// The last word of a look-up's answer.
#[allow(dead_code)]
pub mod side {
    pub const PROJECT: u64 = 1;
    pub const HOUSE: u64 = 2;
    pub const NEITHER: u64 = 3;
}

/// A function that looks a setting up in a project's file and the house file.
pub type LookUp = unsafe extern "C" fn(*const u8, usize, *const u8, usize, *mut Words);

unsafe extern "C" {
    pub fn tulbazhik_next_token(src: *const u8, len: usize, at: usize, answer: *mut Words);
    pub fn tulbazhik_fresh(state: *mut Words);
    pub fn tulbazhik_feed(state: *mut Words, piece: *const u8, len: usize, answer: *mut Words);
    pub fn tulbazhik_close(state: *mut Words, answer: *mut Words);
    pub fn tulbazhik_read(src: *const u8, len: usize, table: *mut u8, room: usize, answer: *mut Words);
    pub fn tulbazhik_print(
        table: *const u8,
        len: usize,
        width: u32,
        text: *mut u8,
        room: usize,
        answer: *mut Words,
    );
    pub fn tulbazhik_fill(
        table: *const u8,
        len: usize,
        width: u32,
        state: *mut PrintWords,
        window: *mut u8,
        room: usize,
        answer: *mut Words,
    );
    pub fn tulbazhik_edition(
        project: *const u8,
        project_len: usize,
        house: *const u8,
        house_len: usize,
        answer: *mut Words,
    );
    pub fn tulbazhik_width(
        project: *const u8,
        project_len: usize,
        house: *const u8,
        house_len: usize,
        answer: *mut Words,
    );
    pub fn tulbazhik_style(
        project: *const u8,
        project_len: usize,
        house: *const u8,
        house_len: usize,
        answer: *mut Words,
    );
    pub fn tulbazhik_write_width(
        file: *const u8,
        len: usize,
        width: u32,
        copy: *mut u8,
        room: usize,
        answer: *mut Words,
    );
    pub fn tulbazhik_write_style(
        file: *const u8,
        len: usize,
        name: *const u8,
        name_len: usize,
        copy: *mut u8,
        room: usize,
        answer: *mut Words,
    );
}

/// The words that a function writes.
///
/// # Safety
/// `call` makes one call, which is lent its argument as the answer or the state: each function is proved to write all eight words.
#[inline]
pub unsafe fn written(call: impl FnOnce(*mut Words)) -> Words {
    let mut words = MaybeUninit::uninit();
    call(words.as_mut_ptr());
    // SAFETY: by the duty above.
    unsafe { words.assume_init() }
}
