//! The stack that the functions take on the deepest sources there are, which is more than on any other.

use std::iter::repeat_n;

unsafe extern "C" {
    fn stack_taken(source: *const u8, length: usize, width: u32) -> usize;
}

/// As the header has it.
const STACK: usize = 65_536;
const DEEPEST: usize = 64;

/// The most that any of them takes, in bytes; none where a source is not read and printed, or takes more than the header says.
pub fn most() -> Option<usize> {
    let nested = |open: &str, inside: &str, close: &str, levels: usize| {
        let parts = repeat_n(open, levels).chain([inside]).chain(repeat_n(close, levels));
        parts.collect::<String>()
    };
    let sources = [
        nested("(", "", ")", DEEPEST),
        nested("(a ", "b", " c)", DEEPEST),
        nested("a @ ", "b", "", DEEPEST),
        nested("(a @ ", "b", " c)", DEEPEST / 2),
        nested("a @ (b ", "c", " d)", DEEPEST / 2),
    ];
    let mut most = 0;
    for source in &sources {
        for width in [0, 40, 100, u32::MAX] {
            // SAFETY: the pointer and the length are a string's.
            let taken = unsafe { stack_taken(source.as_ptr(), source.len(), width) };
            if taken == 0 || taken > STACK {
                return None;
            }
            most = most.max(taken);
        }
    }
    Some(most)
}
