//! Memory with a guard on both sides: a function that writes past what it was lent is found out.

use std::ffi::c_int;

const GUARD: usize = 64;
const FILL: u8 = 0xA5;
const UNWRITTEN: u64 = u64::from_ne_bytes([FILL; 8]);

/// Bytes to lend. A room holds 0xA5 throughout.
pub struct Bytes {
    all: Vec<u8>,
    before: Vec<u8>,
}

impl Bytes {
    pub fn room(len: usize) -> Bytes {
        Bytes::of(&vec![FILL; len])
    }

    pub fn of(bytes: &[u8]) -> Bytes {
        let mut all = vec![FILL ^ 0xff; GUARD];
        all.extend(bytes);
        all.extend([FILL ^ 0xff; GUARD]);
        Bytes { before: all.clone(), all }
    }

    pub fn len(&self) -> usize {
        self.all.len() - 2 * GUARD
    }

    pub fn lent(&mut self) -> *mut u8 {
        self.all[GUARD..].as_mut_ptr()
    }

    pub fn bytes(&self) -> &[u8] {
        &self.all[GUARD..GUARD + self.len()]
    }

    /// Whether every byte is as before but for the first `written` of the room.
    pub fn kept(&self, written: usize) -> bool {
        let end = GUARD + written;
        self.all[..GUARD] == self.before[..GUARD] && self.all[end..] == self.before[end..]
    }
}

/// Words to lend, as an answer or a state: eight, or as many as are said.
pub struct Lent<const N: usize = 8> {
    words: Vec<u64>,
}

impl<const N: usize> Lent<N> {
    /// They hold what no answer is, so that a word that is left unwritten is found out too.
    pub fn unwritten() -> Lent<N> {
        Lent::of([UNWRITTEN; N])
    }

    pub fn of(words: [u64; N]) -> Lent<N> {
        let guard = [UNWRITTEN; 8];
        Lent { words: guard.iter().chain(&words).chain(&guard).copied().collect() }
    }

    pub fn lent(&mut self) -> *mut [u64; N] {
        self.words[8..8 + N].as_mut_ptr().cast()
    }

    /// The words, once the guards were found untouched.
    pub fn words(&self) -> [u64; N] {
        let whole = self.words[..8].iter().chain(&self.words[8 + N..]).all(|word| *word == UNWRITTEN);
        assert!(whole, "a function wrote past the words that it was lent");
        self.words[8..8 + N].try_into().expect("so many words")
    }
}

unsafe extern "C" {
    fn mmap(at: *mut u8, len: usize, protection: c_int, flags: c_int, file: c_int, offset: i64) -> *mut u8;
    fn mprotect(at: *mut u8, len: usize, protection: c_int) -> c_int;
}

const PAGE: usize = 4096;
const READ_AND_WRITE: c_int = 3;
const PRIVATE_AND_OF_NO_FILE: c_int = 0x22;

/// A page between two that nobody may read or write: a function that goes astray by more than a guard's length ends the process.
pub struct Fenced {
    page: *mut u8,
}

impl Fenced {
    pub fn new() -> Fenced {
        // SAFETY: memory that nobody has, and its middle page is opened.
        unsafe {
            let all = mmap(std::ptr::null_mut(), 3 * PAGE, 0, PRIVATE_AND_OF_NO_FILE, -1, 0);
            assert!(all.addr() != usize::MAX, "there is memory");
            assert_eq!(mprotect(all.add(PAGE), PAGE, READ_AND_WRITE), 0, "a page is opened");
            Fenced { page: all.add(PAGE) }
        }
    }

    fn bytes(&mut self) -> &mut [u8] {
        // SAFETY: the open page, which this value alone has.
        unsafe { std::slice::from_raw_parts_mut(self.page, PAGE) }
    }

    /// `len` bytes, a page at most, at the page's front or at its end. The page holds 0xA5 throughout.
    pub fn lent(&mut self, len: usize, front: bool) -> *mut u8 {
        self.bytes().fill(FILL);
        let at = if front { 0 } else { PAGE - len };
        self.bytes()[at..].as_mut_ptr()
    }

    /// Whether every byte is as before but for the first `written` of those lent.
    pub fn kept(&mut self, len: usize, front: bool, written: usize) -> bool {
        let at = if front { 0 } else { PAGE - len };
        let bytes = self.bytes();
        bytes[..at].iter().chain(&bytes[at + written..]).all(|byte| *byte == FILL)
    }
}
