//! The answers of the proved library to a frame, in the probe's lines, by each way there is to ask it.

use std::ffi::{c_char, c_int};
use std::io::{self, ErrorKind, Read};

use tulbazhik::FeedError;

use crate::answer;
use crate::drive::{self, Feeder};
use crate::ffi::{self, Words};
use crate::frame::{Frame, OUTPUT_ROOM, TABLE_ROOM, after_layout};
use crate::guarded::{Bytes, Lent};
use crate::token::{Answer, Kind, Refusal, Token};
use crate::windowed;
use crate::windows::Calls;

unsafe extern "C" {
    fn example_format(source: *const u8, length: usize, text: *mut *mut c_char, size: *mut usize) -> c_int;
    fn free(memory: *mut c_char);
}

type Way = (&'static str, Vec<u8>);

/// A text and its count, or a refusal.
pub type Text = Result<(Vec<u8>, u64), Refusal>;

pub fn answers(frame: &Frame) -> Vec<Way> {
    let (source, a, b) = (&frame.bytes[..], frame.a as usize, frame.b as usize);
    let mut ways = match frame.op {
        b'L' => vec![("C", lexed_in_c(source, a)), ("wrapper", lexed(source, a))],
        b'F' => vec![
            ("C", driven(Guarded::new(), source, a, b)),
            ("wrapper", driven(Wrapped::new(), source, a, b)),
        ],
        b'f' => {
            vec![("wrapper", driven(Wrapped::new(), source, a, b)), ("reader", from_reader(source, a, b))]
        }
        b'C' | b'c' => {
            let byte = frame.op == b'c';
            let called = |feeder: Box<dyn Feeder>| {
                let mut out = Vec::new();
                drive::calls(feeder, source, a, b, byte, &mut out);
                out
            };
            vec![("C", called(Guarded::new())), ("wrapper", called(Wrapped::new()))]
        }
        b'R' => {
            vec![("C", read_in_c(source, a.min(TABLE_ROOM))), ("wrapper", read(source, a.min(TABLE_ROOM)))]
        }
        b'P' => prints(source, frame.a, b.min(OUTPUT_ROOM), false),
        b'Q' => prints(after_layout(source), frame.a, b.min(OUTPUT_ROOM), true),
        b'W' => {
            let mut ways = vec![("wrapper", rewritten(source, frame.a))];
            if frame.a == 100 {
                ways.push(("the C example", by_example(source)));
            }
            ways
        }
        b'V' => windowed::calls(&Calls::of(source), frame.a),
        b'v' => windowed::insides(&Calls::of(source), frame.a, frame.b),
        op => panic!("no op {op}"),
    };
    ways.iter_mut().for_each(|(_, lines)| lines.extend(b".\n"));
    ways
}

/// The words of the header, read here once more, apart from the wrapper: what a lexer's or a feeder's answer says, and the bytes consumed.
fn said(words: Words) -> (usize, Answer) {
    let [kind, place, size, high, low, used, spare @ ..] = words;
    let value = ((high as u128) << 64 | low as u128) as i128;
    let token = |kind| Answer::Token(Token { kind, start: place as usize, len: size as usize });
    assert!(kind == 5 || (high, low) == (0, 0), "words that the header says are 0");
    assert!(spare == [0, 0], "words that are to spare");
    let answer = match kind {
        0 => Answer::End,
        1 => token(Kind::Open),
        2 => token(Kind::Close),
        3 => token(Kind::At),
        4 => token(Kind::Symbol),
        5 => token(Kind::Int(value)),
        6 => Answer::Refused(Refusal { number: size as u32, place: place as usize }),
        7 => Answer::More,
        kind => panic!("no kind {kind}"),
    };
    (used as usize, answer)
}

/// The same of an answer that consumes nothing.
fn said_alone(words: Words) -> Answer {
    let (used, answer) = said(words);
    assert_eq!(used, 0, "it consumes nothing");
    answer
}

/// The wrapper's answers in the oracle's types.
fn of_wrapper(answer: tulbazhik::Answer) -> Answer {
    match answer {
        tulbazhik::Answer::Token(token) => Answer::Token(of_token(token)),
        tulbazhik::Answer::More => Answer::More,
        tulbazhik::Answer::End => Answer::End,
        tulbazhik::Answer::Refused(error) => Answer::Refused(of_error(error)),
    }
}

fn of_token(token: tulbazhik::Token) -> Token {
    let kind = match token.kind {
        tulbazhik::Kind::LParen => Kind::Open,
        tulbazhik::Kind::RParen => Kind::Close,
        tulbazhik::Kind::At => Kind::At,
        tulbazhik::Kind::Symbol => Kind::Symbol,
        tulbazhik::Kind::Int(value) => Kind::Int(value),
    };
    Token { kind, start: token.start, len: token.len }
}

pub fn of_error(error: tulbazhik::Error) -> Refusal {
    Refusal { number: error.number as u32, place: error.place }
}

fn lexed_in_c(source: &[u8], from: usize) -> Vec<u8> {
    let (mut lent, mut at, mut out) = (Bytes::of(source), from, Vec::new());
    loop {
        let mut words = Lent::unwritten();
        // SAFETY: both are memory of this function's own, of the sizes that are said.
        unsafe { ffi::tulbazhik_next_token(lent.lent(), lent.len(), at, words.lent()) };
        let answer = said_alone(words.words());
        answer.line(&mut out);
        match answer {
            Answer::Token(token) => at = token.start + token.len,
            _ => break,
        }
    }
    assert!(lent.kept(0), "the source was changed");
    out
}

/// From the start on by the iterator, else by the function.
fn lexed(source: &[u8], from: usize) -> Vec<u8> {
    let (mut at, mut out) = (from, Vec::new());
    let mut tokens = tulbazhik::tokens(source);
    loop {
        let next = if from == 0 { tokens.next().transpose() } else { tulbazhik::next_token(source, at) };
        match next {
            Ok(Some(token)) => {
                of_token(token).line(&mut out);
                at = token.end();
            }
            Ok(None) => {
                Answer::End.line(&mut out);
                return out;
            }
            Err(error) => {
                of_error(error).line(&mut out);
                return out;
            }
        }
    }
}

/// The C functions over a state and words that are guarded, each piece in memory of its own.
struct Guarded {
    state: Lent,
}

impl Guarded {
    fn new() -> Box<dyn Feeder> {
        let mut state = Lent::unwritten();
        // SAFETY: eight words of this function's own.
        unsafe { ffi::tulbazhik_fresh(state.lent()) };
        assert_eq!(state.words(), [0; 8], "the fresh state is zeros");
        Box::new(Guarded { state })
    }
}

impl Feeder for Guarded {
    fn feed(&mut self, piece: &[u8]) -> (usize, Answer) {
        let (mut lent, mut words) = (Bytes::of(piece), Lent::unwritten());
        // SAFETY: three pieces of memory of this process's own, of the sizes that are said.
        unsafe { ffi::tulbazhik_feed(self.state.lent(), lent.lent(), lent.len(), words.lent()) };
        assert!(lent.kept(0), "the piece was changed");
        self.state.words();
        said(words.words())
    }

    fn close(&mut self) -> Answer {
        let mut words = Lent::unwritten();
        // SAFETY: as in `feed`.
        unsafe { ffi::tulbazhik_close(self.state.lent(), words.lent()) };
        self.state.words();
        said_alone(words.words())
    }
}

struct Wrapped(tulbazhik::Feeder);

impl Wrapped {
    fn new() -> Box<dyn Feeder> {
        Box::new(Wrapped(tulbazhik::Feeder::new()))
    }
}

impl Feeder for Wrapped {
    fn feed(&mut self, piece: &[u8]) -> (usize, Answer) {
        let (used, answer) = self.0.feed(piece);
        (used, of_wrapper(answer))
    }

    fn close(&mut self) -> Answer {
        of_wrapper(self.0.close())
    }
}

fn driven(feeder: Box<dyn Feeder>, source: &[u8], first: usize, later: usize) -> Vec<u8> {
    let mut out = Vec::new();
    drive::tokens(feeder, source, first, later, &mut out);
    out
}

/// A reader that hands out the same cuts and would block before each; the spelling of each token is that of the source.
fn from_reader(source: &[u8], first: usize, later: usize) -> Vec<u8> {
    struct Cut<'s>(&'s [u8], usize, usize, bool);
    impl Read for Cut<'_> {
        fn read(&mut self, into: &mut [u8]) -> io::Result<usize> {
            self.3 = !self.3;
            if self.3 {
                return Err(ErrorKind::WouldBlock.into());
            }
            let n = self.1.max(1).min(self.0.len()).min(into.len());
            into[..n].copy_from_slice(&self.0[..n]);
            (self.0, self.1) = (&self.0[n..], self.2);
            Ok(n)
        }
    }
    let mut out = Vec::new();
    let mut tokens = tulbazhik::Feeder::new().tokens_from_in(Cut(source, first, later, false), 4096);
    loop {
        match tokens.next() {
            Some(Ok(token)) => {
                assert_eq!(tokens.spelling(&token), &source[token.range()], "the spelling");
                of_token(token).line(&mut out);
            }
            Some(Err(FeedError::Refused(error))) => {
                of_error(error).line(&mut out);
                return out;
            }
            Some(Err(FeedError::Read(error))) => assert_eq!(error.kind(), ErrorKind::WouldBlock),
            None => {
                Answer::End.line(&mut out);
                return out;
            }
        }
    }
}

/// Bytes in hex, or the refusal, and whether all else was kept.
fn shown(word: &str, result: Result<&[u8], Refusal>, kept: Option<bool>) -> Vec<u8> {
    let mut out = Vec::new();
    match result {
        Ok(bytes) => answer::shown(word, bytes, &mut out),
        Err(refusal) => refusal.line(&mut out),
    }
    if let Some(kept) = kept {
        kept_line(kept, &mut out);
    }
    out
}

fn kept_line(kept: bool, out: &mut Vec<u8>) {
    out.extend(if kept { &b"kept\n"[..] } else { b"touched\n" });
}

/// The lines of P or, with the count, of Q, by each way to print.
fn prints(table: &[u8], width: u32, room: usize, counted: bool) -> Vec<Way> {
    let mut ways = vec![("C", print_in_c(table, width, room)), ("wrapper", print(table, width, room))];
    // a window has no want of room; where the print has, it is told here
    ways.extend(windowed::texts(table, width).into_iter().map(|(way, text)| {
        let text = text.and_then(|(text, looked)| match text.len() {
            len if len > room => Err(Refusal { number: 18, place: len }),
            _ => Ok((text, looked)),
        });
        (way, (text, true))
    }));
    ways.into_iter().map(|(way, (text, kept))| (way, print_lines(text, kept, counted))).collect()
}

fn print_lines(text: Text, kept: bool, counted: bool) -> Vec<u8> {
    let mut out = Vec::new();
    match text {
        Ok((bytes, looked)) => {
            answer::shown("print", &bytes, &mut out);
            if counted {
                answer::looked(looked as usize, &mut out);
            }
        }
        Err(refusal) => refusal.line(&mut out),
    }
    kept_line(kept, &mut out);
    out
}

fn read_in_c(source: &[u8], room: usize) -> Vec<u8> {
    let (mut lent, mut table, mut words) = (Bytes::of(source), Bytes::room(room), Lent::unwritten());
    // SAFETY: three pieces of memory of this function's own, of the sizes that are said.
    unsafe { ffi::tulbazhik_read(lent.lent(), lent.len(), table.lent(), table.len(), words.lent()) };
    assert!(lent.kept(0), "the source was changed");
    let (read, kept) = by_words(words.words(), &table);
    let read = read.map(|(table, looked)| {
        assert_eq!(looked, 0, "a word that the header says is 0");
        table
    });
    shown("table", read.as_deref().map_err(|refusal| *refusal), Some(kept))
}

fn print_in_c(table: &[u8], width: u32, room: usize) -> (Text, bool) {
    let (mut lent, mut text, mut words) = (Bytes::of(table), Bytes::room(room), Lent::unwritten());
    // SAFETY: as in `read_in_c`.
    unsafe { ffi::tulbazhik_print(lent.lent(), lent.len(), width, text.lent(), text.len(), words.lent()) };
    assert!(lent.kept(0), "the table was changed");
    by_words(words.words(), &text)
}

/// What was written into a room, with the word that a print has its count in, and whether all else was kept.
fn by_words(answer: Words, room: &Bytes) -> (Text, bool) {
    match answer {
        [8, 0, len, 0, 0, 0, looked, 0] => {
            (Ok((room.bytes()[..len as usize].to_vec(), looked)), room.kept(len as usize))
        }
        [6, place, number, 0, 0, 0, 0, 0] => {
            (Err(Refusal { number: number as u32, place: place as usize }), room.kept(0))
        }
        words => panic!("no answer has the words {words:?}"),
    }
}

fn read(source: &[u8], room: usize) -> Vec<u8> {
    let mut table = Bytes::room(room);
    // SAFETY: the room is this function's own.
    let lent = unsafe { std::slice::from_raw_parts_mut(table.lent(), room) };
    match tulbazhik::read_into(source, lent) {
        Ok(len) => shown("table", Ok(&table.bytes()[..len]), Some(table.kept(len))),
        Err(error) => shown("table", Err(of_error(error)), Some(table.kept(0))),
    }
}

fn print(table: &[u8], width: u32, room: usize) -> (Text, bool) {
    let mut text = Bytes::room(room);
    // SAFETY: the room is this function's own.
    let lent = unsafe { std::slice::from_raw_parts_mut(text.lent(), room) };
    match tulbazhik::print_into(table, width, lent) {
        Ok(tulbazhik::Printed { len, looked }) => {
            (Ok((text.bytes()[..len].to_vec(), looked)), text.kept(len))
        }
        Err(error) => (Err(of_error(error)), text.kept(0)),
    }
}

/// The source read and printed, with rooms that grow.
fn rewritten(source: &[u8], width: u32) -> Vec<u8> {
    let text = tulbazhik::read(source).and_then(|table| tulbazhik::print(&table, width));
    match text {
        Ok(text) => shown("text", Ok(&text.bytes), None),
        Err(error) => shown("text", Err(of_error(error)), None),
    }
}

fn by_example(source: &[u8]) -> Vec<u8> {
    let (mut text, mut size) = (std::ptr::null_mut(), 0);
    // SAFETY: the C function allocates the text and says its size; it is freed once it was copied.
    let (refused, text) = unsafe {
        let refused = example_format(source.as_ptr(), source.len(), &mut text, &mut size) != 0;
        let copy = std::slice::from_raw_parts(text.cast::<u8>(), size).to_vec();
        free(text);
        (refused, copy)
    };
    // a refusal is a line of its own already
    if refused { text } else { shown("text", Ok(&text), None) }
}
