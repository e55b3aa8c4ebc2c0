//! Prints through windows: in C with each window in guarded memory, by the wrapper, and in C with what no caller should pass.

use std::io;

use tulbazhik::Printing;

use crate::answer::{looked, shown};
use crate::doors::{Text, of_error};
use crate::ffi::{self, PrintWords, Words};
use crate::frame::OUTPUT_ROOM;
use crate::guarded::{Bytes, Fenced, Lent};
use crate::rng::Rng;
use crate::token::Refusal;
use crate::windows::Calls;

/// A table's text and count by each way through windows; their lengths are chosen by the table.
pub fn texts(table: &[u8], width: u32) -> Vec<(&'static str, Text)> {
    let words = [width as u64, table.len() as u64, table.iter().map(|byte| *byte as u64).sum()];
    let rng = || Rng::of(&words);
    vec![
        ("windows in C", in_c(table, width, &Lengths::new(&mut rng()), &mut rng())),
        ("windows by the wrapper", by_wrapper(table, width, &mut rng())),
        ("io::copy", of_io(table, width, |printing, out| io::copy(printing, out))),
        ("write_to", of_io(table, width, |printing, out| printing.write_to(out))),
    ]
}

/// A text of many windows of each length, beside the ordinary print: whether they are the same.
pub fn long() -> Vec<bool> {
    let source = b"(rule 1 (lower (iadd x y @ (imm 0xff))) (add_with_a_long_name x -12)) (decl f (T U) R)\n";
    let table = tulbazhik::read(&source.repeat(30)).expect("it reads");
    let (mut same, mut rng) = (Vec::new(), Rng::of(&[]));
    for width in [0, 40, 100] {
        let tulbazhik::Text { bytes, looked } = tulbazhik::print(&table, width).expect("it prints");
        let text = Ok((bytes, looked));
        for len in [1, 2, 3, 511, 512, 513, 4096] {
            same.push(in_c(&table, width, &Lengths::Alike(len), &mut rng) == text);
        }
    }
    same
}

/// The lengths of one print's windows: all alike, with one of length 0 now and then, or of any length.
enum Lengths {
    Alike(usize),
    Any,
}

impl Lengths {
    fn new(rng: &mut Rng) -> Lengths {
        match rng.below(4) {
            0 => Lengths::Any,
            _ => Lengths::Alike(rng.pick(&[1, 2, 3, 511, 512, 513])),
        }
    }

    fn next(&self, rng: &mut Rng) -> usize {
        match self {
            Lengths::Alike(len) => rng.pick(&[*len, *len, *len, 0]),
            Lengths::Any => any_length(rng),
        }
    }
}

fn any_length(rng: &mut Rng) -> usize {
    let (few, many) = (rng.below(40), rng.below(4096));
    rng.pick(&[0, 1, 2, 3, 511, 512, 513, few, many])
}

enum Said {
    Bytes(usize),
    End(u64),
    Refused(Refusal),
}

/// The words of the header, read here once more, apart from the wrapper.
fn said(words: Words) -> Said {
    match words {
        [8, 0, len, 0, 0, 0, 0, 0] => Said::Bytes(len as usize),
        [0, 0, 0, 0, 0, 0, looked, 0] => Said::End(looked),
        [6, place, number, 0, 0, 0, 0, 0] => {
            Said::Refused(Refusal { number: number as u32, place: place as usize })
        }
        words => panic!("no answer has the words {words:?}"),
    }
}

/// A call in C, its window in memory of its own.
fn fill_in_c(table: &[u8], width: u32, state: &mut PrintWords, len: usize) -> (Said, Bytes) {
    let (mut lent, mut words) = (Bytes::of(table), Lent::of(*state));
    let (mut window, mut answer) = (Bytes::room(len), Lent::unwritten());
    // SAFETY: four pieces of memory of this function's own, of the sizes that are said.
    unsafe {
        let (table, room) = (lent.lent(), window.lent());
        ffi::tulbazhik_fill(table, lent.len(), width, words.lent(), room, len, answer.lent())
    };
    assert!(lent.kept(0), "the table was changed");
    *state = words.words();
    (said(answer.words()), window)
}

/// A call by the wrapper, to which the state is given and from which it is taken.
fn fill_by_wrapper(table: &[u8], width: u32, state: &mut PrintWords, len: usize) -> (Said, Bytes) {
    let (mut window, mut printing) = (Bytes::room(len), Printing::resume(table, width, *state));
    // SAFETY: the window is this function's own.
    let answer = printing.fill(unsafe { std::slice::from_raw_parts_mut(window.lent(), len) });
    *state = printing.state();
    let said = match answer {
        Ok(Some(n)) => Said::Bytes(n),
        Ok(None) => Said::End(printing.looked().expect("it comes with the end")),
        Err(error) => Said::Refused(of_error(error)),
    };
    assert!(matches!(said, Said::End(_)) || printing.looked().is_none(), "it comes with the end alone");
    (said, window)
}

type Fill = fn(&[u8], u32, &mut PrintWords, usize) -> (Said, Bytes);
const WAYS: [(&str, Fill); 2] = [("C", fill_in_c), ("wrapper", fill_by_wrapper)];

/// A line or two for each call of a frame, by each way.
fn lines(
    calls: &Calls,
    mut line: impl FnMut(Fill, &mut PrintWords, usize, &mut Vec<u8>),
) -> Vec<(&'static str, Vec<u8>)> {
    let by = WAYS.map(|(way, fill)| {
        let (mut state, mut out) = ([0; 72], Vec::new());
        (0..calls.lengths.len()).for_each(|call| line(fill, &mut state, call, &mut out));
        (way, out)
    });
    by.into()
}

/// Of a call of a frame its table and its window's length.
fn given(calls: &Calls, call: usize) -> (&[u8], usize) {
    let table = if call < calls.first { &calls.x } else { &calls.y };
    (table, (calls.lengths[call] as usize).min(OUTPUT_ROOM))
}

/// The lines of op V: what each call answers and writes.
pub fn calls(calls: &Calls, width: u32) -> Vec<(&'static str, Vec<u8>)> {
    lines(calls, |fill, state, call, out| {
        let (table, len) = given(calls, call);
        let (said, window) = fill(table, width, state, len);
        let written = match said {
            Said::Bytes(n) => {
                shown("window", &window.bytes()[..n], out);
                n
            }
            Said::End(count) => {
                out.extend(b"end\n");
                looked(count as usize, out);
                0
            }
            Said::Refused(refusal) => {
                refusal.line(out);
                0
            }
        };
        out.extend(if window.kept(written) { &b"kept\n"[..] } else { b"touched\n" });
    })
}

/// The lines of op v, where the table and the width change: each call keeps to its window.
pub fn insides(calls: &Calls, width: u32, later: u32) -> Vec<(&'static str, Vec<u8>)> {
    lines(calls, |fill, state, call, out| {
        let (table, len) = given(calls, call);
        let (said, window) = fill(table, if call < calls.first { width } else { later }, state, len);
        let written = if let Said::Bytes(n) = said { n } else { 0 };
        let inside = written <= len && window.kept(written);
        out.extend(if inside { &b"inside\n"[..] } else { b"outside\n" });
    })
}

/// Each window in memory of its own; what the header says of each call is held to it.
fn in_c(table: &[u8], width: u32, lengths: &Lengths, rng: &mut Rng) -> Text {
    let (mut state, mut text, mut parts) = ([0; 72], Vec::new(), Vec::new());
    let looked = loop {
        let (before, len) = (state, lengths.next(rng));
        match fill_in_c(table, width, &mut state, len) {
            (Said::Bytes(n), window) => {
                assert!(window.kept(n), "bytes past those reported");
                assert!(len > 0 || state == before, "a window of length 0 moves nothing");
                text.extend(&window.bytes()[..n]);
                parts.push((len, n));
            }
            (Said::End(looked), window) => {
                assert!(window.kept(0), "the end writes nothing");
                break looked;
            }
            (Said::Refused(refusal), window) => {
                assert!(parts.is_empty(), "a later call refuses");
                assert!(window.kept(0) && state == before, "a refused call changes something");
                return Err(refusal);
            }
        }
    };
    for len in [0, 1, 512] {
        let (answer, window) = fill_in_c(table, width, &mut state, len);
        let same = matches!(answer, Said::End(again) if again == looked);
        assert!(same && window.kept(0), "the end does not stay");
    }
    let mut left = text.len();
    for (len, n) in parts {
        assert_eq!(n, len.min(left), "as many bytes as the window holds or as are left");
        assert!(left > 0, "none was left, and no end was answered");
        left -= n;
    }
    Ok((text, looked))
}

fn by_wrapper(table: &[u8], width: u32, rng: &mut Rng) -> Text {
    let (mut state, mut text, lengths) = ([0; 72], Vec::new(), Lengths::new(rng));
    loop {
        match fill_by_wrapper(table, width, &mut state, lengths.next(rng)) {
            (Said::Bytes(n), window) => text.extend(&window.bytes()[..n]),
            (Said::End(looked), _) => return Ok((text, looked)),
            (Said::Refused(refusal), _) => return Err(refusal),
        }
    }
}

/// A text that is written into a vector; a refusal is inside the error.
fn of_io(
    table: &[u8],
    width: u32,
    write: impl FnOnce(&mut Printing, &mut Vec<u8>) -> io::Result<u64>,
) -> Text {
    let (mut printing, mut text) = (Printing::new(table, width), Vec::new());
    match write(&mut printing, &mut text) {
        Ok(len) => {
            assert_eq!(len, text.len() as u64, "the length that it says");
            Ok((text, printing.looked().expect("it comes with the end")))
        }
        Err(error) => {
            assert!(text.is_empty(), "a refused print writes nothing");
            Err(of_error(error.downcast::<tulbazhik::Error>().expect("the error carries the refusal")))
        }
    }
}

/// Calls with a table and a width that change between them and with states that no call gave: each ends, writes in its window
/// alone, and says no more than the window holds.
pub fn astray(tables: [&[u8]; 2], fence: &mut Fenced, rng: &mut Rng) {
    let mut state = Lent::of(any_state(rng));
    for _ in 0..6 {
        let (table, width) = (rng.pick(&tables), rng.pick(&[0, 40, 100, u32::MAX]));
        let cut = if rng.one_in(2) { rng.below(table.len() + 1) } else { table.len() };
        let (mut table, len, front) = (Bytes::of(&table[..cut]), any_length(rng), rng.one_in(2));
        let (before, mut words) = (state.words(), Lent::unwritten());
        // SAFETY: four pieces of memory of this function's own, of the sizes that are said.
        unsafe {
            let window = fence.lent(len, front);
            ffi::tulbazhik_fill(table.lent(), table.len(), width, state.lent(), window, len, words.lent())
        };
        assert!(table.kept(0), "the table was changed");
        let written = match said(words.words()) {
            Said::Bytes(n) => n,
            Said::End(_) => 0,
            Said::Refused(refusal) => {
                assert!(refusal.number != 18, "a window has no want of room");
                assert_eq!(state.words(), before, "a refused call gives its state back");
                0
            }
        };
        assert!(written <= len && fence.kept(len, front, written), "a call writes past its window");
        if rng.one_in(2) {
            let mut words = state.words();
            let at = if rng.one_in(2) { rng.below(72) } else { 64 + rng.below(8) };
            words[at] = any_word(rng);
            state = Lent::of(words);
        }
    }
}

fn any_word(rng: &mut Rng) -> u64 {
    let word = rng.next();
    rng.pick(&[word, word % 10, word % 100, word % 65536, u64::MAX, 255 << 32, 1 << 63])
}

/// Fresh, or any words; the phase is one that there is more often than not.
fn any_state(rng: &mut Rng) -> PrintWords {
    if rng.one_in(4) {
        return [0; 72];
    }
    let mut words = std::array::from_fn(|_| any_word(rng));
    if !rng.one_in(4) {
        words[64] = rng.next() % 9;
    }
    words
}
