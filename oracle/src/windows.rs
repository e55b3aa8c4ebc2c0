//! The ops V and v: document 02, "Print through a small window", told from the ordinary print, whose text is cut at the windows.

use crate::answer::{Printed, Side, looked, print, shown};
use crate::frame::OUTPUT_ROOM;

/// What such a frame holds: a window's length for each call, how many calls are on the first table, and the tables.
#[derive(Clone, Debug, PartialEq, Eq)]
pub struct Calls {
    pub lengths: Vec<u32>,
    pub first: usize,
    pub x: Vec<u8>,
    pub y: Vec<u8>,
}

impl Calls {
    pub fn bytes(&self) -> Vec<u8> {
        let mut bytes = Vec::new();
        for number in [self.lengths.len(), self.first, self.x.len()] {
            bytes.extend((number as u32).to_le_bytes());
        }
        self.lengths.iter().for_each(|length| bytes.extend(length.to_le_bytes()));
        [bytes, self.x.clone(), self.y.clone()].concat()
    }

    /// Of bytes that are cut short, the calls are those whose lengths are there, and a table is what is there of it.
    pub fn of(bytes: &[u8]) -> Calls {
        let (head, rest) = bytes.split_at(bytes.len().min(12));
        let words = |bytes: &[u8]| -> Vec<u32> {
            let word = |word: &[u8]| u32::from_le_bytes(word.try_into().expect("four bytes"));
            bytes.chunks_exact(4).map(word).collect()
        };
        let mut numbers = words(head);
        numbers.resize(3, 0);
        let (lengths, tables) = rest.split_at(4 * (numbers[0] as usize).min(rest.len() / 4));
        let (x, y) = tables.split_at((numbers[2] as usize).min(tables.len()));
        Calls { lengths: words(lengths), first: numbers[1] as usize, x: x.to_vec(), y: y.to_vec() }
    }

    fn table(&self, call: usize) -> &[u8] {
        if call < self.first { &self.x } else { &self.y }
    }
}

/// A print that has begun: its table, what the ordinary print gives, and the bytes that were given.
struct Begun<'a> {
    table: &'a [u8],
    whole: Printed,
    given: usize,
}

/// The lines of V. Until a byte or an end was given the state is the fresh one, and a call prints its own table from the start;
/// after that the table must stay, or document 02 leaves the answer open and the case is one for v.
pub fn answers(side: &dyn Side, calls: &Calls, width: usize, out: &mut Vec<u8>) {
    let mut begun: Option<Begun> = None;
    for (call, length) in calls.lengths.iter().enumerate() {
        let (table, window) = (calls.table(call), (*length as usize).min(OUTPUT_ROOM));
        let print = match begun.take() {
            Some(print) => Ok(print),
            None => print(side, table, width, usize::MAX).map(|whole| Begun { table, whole, given: 0 }),
        };
        match print {
            Err(refusal) => refusal.line(out),
            Ok(mut print) => {
                assert!(
                    print.table == table,
                    "the table changed after bytes were given, which is a case for v"
                );
                let (given, len) = (print.given, print.whole.text.len());
                print.given += window.min(len - given);
                if given == len {
                    out.extend(b"end\n");
                    looked(print.whole.looked, out);
                } else {
                    shown("window", &print.whole.text[given..print.given], out);
                }
                let moved = print.given > 0 || len == 0;
                begun = moved.then_some(print);
            }
        }
        out.extend(b"kept\n");
    }
}

/// The lines of v: whatever a call answers, it keeps to its window.
pub fn insides(calls: &Calls, out: &mut Vec<u8>) {
    calls.lengths.iter().for_each(|_| out.extend(b"inside\n"));
}

#[cfg(test)]
mod tests {
    use super::Calls;

    fn calls() -> Calls {
        Calls { lengths: vec![0, 512, u32::MAX], first: 1, x: b"abc".to_vec(), y: b"de".to_vec() }
    }

    #[test]
    fn what_is_written_is_read_back() {
        assert_eq!(Calls::of(&calls().bytes()), calls());
    }

    #[test]
    fn cut_bytes_have_what_is_there() {
        let whole = calls().bytes();
        assert_eq!(Calls::of(&whole[..11]), Calls { lengths: vec![], first: 1, x: vec![], y: vec![] });
        assert_eq!(
            Calls::of(&whole[..19]),
            Calls { lengths: vec![0], first: 1, x: whole[16..19].to_vec(), y: vec![] }
        );
        let cut = Calls::of(&whole[..26]);
        assert_eq!((cut.x, cut.y), (b"ab".to_vec(), vec![]));
    }
}
