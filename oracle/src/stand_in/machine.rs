//! Feeding as a machine that takes one byte after the other and never sees the source.

use crate::drive::Feeder;
use crate::token::{Answer, Kind, LIMIT, Refusal, Token, refusal};

#[derive(Clone, Copy)]
enum State {
    Between,
    Line,
    /// Its outermost opener, how many are open, and a first half of `(;` or `;)` that was seen.
    Block {
        opener: usize,
        open: usize,
        half: u8,
    },
    /// A `(` that waits for its next byte.
    Paren,
    Symbol {
        start: usize,
    },
    Literal(Literal),
    Closed,
    Refused(Refusal),
}

#[derive(Clone, Copy)]
struct Literal {
    start: usize,
    minus: bool,
    radix: u128,
    /// Bytes after the sign and the prefix; a prefix is possible after a single 0.
    run: usize,
    zero: bool,
    any: bool,
    value: u128,
    /// The first digit that was foreign (6) or too much (7), and its place.
    fault: Option<Refusal>,
}

pub struct Machine {
    state: State,
    consumed: usize,
}

impl Machine {
    pub fn fresh() -> Machine {
        Machine { state: State::Between, consumed: 0 }
    }

    /// Some answer before the byte is taken, or None once it is taken.
    fn step(&mut self, byte: u8) -> Option<Answer> {
        match self.state {
            State::Symbol { start } if matches!(byte, b'(' | b')' | b';' | b'@' | 9 | 10 | 12 | 13 | 32) => {
                return Some(self.out(Kind::Symbol, start));
            }
            State::Paren if byte != b';' => return Some(self.out(Kind::Open, self.consumed - 1)),
            State::Literal(literal) => match literal.grown(byte, self.consumed) {
                Some(grown) => self.state = State::Literal(grown),
                None => return Some(self.end_literal(literal)),
            },
            State::Between => match self.begin(byte) {
                Ok(state) => self.state = state,
                Err(refusal) => return Some(self.refuse(refusal)),
            },
            State::Line if matches!(byte, b'\n' | b'\r') => self.state = State::Between,
            State::Paren => self.state = State::Block { opener: self.consumed - 1, open: 1, half: 0 },
            State::Block { opener, open, half } => self.state = in_block(opener, open, half, byte),
            _ => {}
        }
        self.consumed += 1;
        None
    }

    fn begin(&self, byte: u8) -> Result<State, Refusal> {
        let start = self.consumed;
        Ok(match byte {
            b' ' | b'\t' | b'\n' | b'\r' | b')' | b'@' => State::Between,
            12 => return Err(refusal(3, start)),
            b';' => State::Line,
            b'(' => State::Paren,
            b'-' | b'0'..=b'9' => State::Literal(Literal::begun(start, byte)),
            _ => State::Symbol { start },
        })
    }

    fn out(&mut self, kind: Kind, start: usize) -> Answer {
        self.state = State::Between;
        Answer::Token(Token { kind, start, len: self.consumed - start })
    }

    fn refuse(&mut self, refusal: Refusal) -> Answer {
        self.state = State::Refused(refusal);
        Answer::Refused(refusal)
    }

    fn end_literal(&mut self, literal: Literal) -> Answer {
        let refusal = match literal {
            Literal { any: false, start, .. } => refusal(5, start),
            Literal { fault: Some(fault), .. } => fault,
            Literal { minus: true, value, start, .. } if value == 1 << 127 => refusal(8, start),
            _ => {
                let value = literal.value as i128;
                let value = if literal.minus { 0i128.wrapping_sub(value) } else { value };
                return self.out(Kind::Int(value), literal.start);
            }
        };
        self.refuse(refusal)
    }
}

fn in_block(opener: usize, open: usize, half: u8, byte: u8) -> State {
    let (open, half) = match (half, byte) {
        (b'(', b';') => (open + 1, 0),
        (b';', b')') => (open - 1, 0),
        (_, b'(' | b';') => (open, byte),
        _ => (open, 0),
    };
    if open == 0 { State::Between } else { State::Block { opener, open, half } }
}

impl Literal {
    fn begun(start: usize, byte: u8) -> Literal {
        let minus = byte == b'-';
        let empty = Literal { start, minus, radix: 10, run: 0, zero: false, any: false, value: 0, fault: None };
        if minus { empty } else { empty.grown(byte, start).expect("a digit belongs to a literal") }
    }

    /// With one more byte, the one at `place`, or None if the byte is not part of it.
    fn grown(mut self, byte: u8, place: usize) -> Option<Literal> {
        let prefix = match byte | 32 {
            b'x' => 16,
            b'o' => 8,
            b'b' => 2,
            _ => 0,
        };
        if self.zero && prefix != 0 {
            return Some(Literal { radix: prefix, zero: false, any: false, run: 2, ..self });
        }
        self.zero = self.run == 0 && byte == b'0';
        self.run += 1;
        if byte == b'_' {
            return Some(self);
        }
        let digit = (byte as char).to_digit(16)? as u128;
        self.any = true;
        if self.fault.is_none() && digit >= self.radix {
            self.fault = Some(refusal(6, place));
        }
        if self.fault.is_none() {
            match self.value.checked_mul(self.radix).and_then(|value| value.checked_add(digit)) {
                Some(value) => self.value = value,
                None => self.fault = Some(refusal(7, place)),
            }
        }
        Some(self)
    }
}

impl Feeder for Machine {
    fn feed(&mut self, piece: &[u8]) -> (usize, Answer) {
        match self.state {
            State::Refused(refusal) => return (0, Answer::Refused(refusal)),
            State::Closed => return (0, Answer::Refused(refusal(19, self.consumed))),
            _ => {}
        }
        let before = self.consumed;
        for &byte in piece {
            if self.consumed == LIMIT {
                let answer = self.refuse(refusal(1, LIMIT));
                return (self.consumed - before, answer);
            }
            let between = matches!(self.state, State::Between);
            if let Some(answer) = self.step(byte) {
                return (self.consumed - before, answer);
            }
            if between && matches!(byte, b')' | b'@') {
                let kind = if byte == b')' { Kind::Close } else { Kind::At };
                return (self.consumed - before, self.out(kind, self.consumed - 1));
            }
        }
        (self.consumed - before, Answer::More)
    }

    fn close(&mut self) -> Answer {
        let answer = match self.state {
            State::Refused(refusal) => Answer::Refused(refusal),
            State::Block { opener, .. } => self.refuse(refusal(4, opener)),
            State::Literal(literal) => self.end_literal(literal),
            State::Symbol { start } => self.out(Kind::Symbol, start),
            State::Paren => self.out(Kind::Open, self.consumed - 1),
            _ => Answer::End,
        };
        if !matches!(answer, Answer::Refused(_)) {
            self.state = State::Closed;
        }
        answer
    }
}
