//! Document 01, "Feeding in pieces", told from the uncut tokens: what each call has to answer is
//! decided by the byte that a token or a refusal waits for, so no byte is looked at here.

use crate::document::lex::{digits_len, literal_len};
use crate::drive::Feeder;
use crate::token::{Answer, Kind, LIMIT, Lexed, Refusal, refusal};

/// Something that comes out of the source, in its order.
struct Event {
    /// The place of the byte that has to be looked at first; the end of the source counts too.
    waits_for: usize,
    /// All bytes consumed once it is out.
    consumed: usize,
    answer: Answer,
}

pub struct FromTokens {
    events: Vec<Event>,
    next: usize,
    consumed: usize,
    closed: bool,
    refused: Option<Refusal>,
}

impl FromTokens {
    pub fn new(source: &[u8], lexed: &Lexed) -> FromTokens {
        let mut events: Vec<Event> = Vec::new();
        for token in &lexed.tokens {
            let end = token.start + token.len;
            let at_once = matches!(token.kind, Kind::Close | Kind::At);
            let waits_for = if at_once { token.start } else { end };
            events.push(Event { waits_for, consumed: end, answer: Answer::Token(*token) });
        }
        if let Some(refusal) = lexed.refusal {
            let waits_for = match refusal.number {
                3 => refusal.place,
                4 => usize::MAX,
                // a digit was refused, and the literal's end is waited for
                6 | 7 => refusal.place + digits_len(&source[refusal.place..]),
                _ => refusal.place + literal_len(&source[refusal.place..]),
            };
            events.push(Event { waits_for, consumed: waits_for, answer: Answer::Refused(refusal) });
        }
        FromTokens { events, next: 0, consumed: 0, closed: false, refused: None }
    }

    fn refuse(&mut self, refusal: Refusal) -> Answer {
        self.refused = Some(refusal);
        Answer::Refused(refusal)
    }

    fn hand_out(&mut self) -> Answer {
        match self.events.get(self.next).map(|event| event.answer) {
            Some(Answer::Refused(refusal)) => self.refuse(refusal),
            Some(token) => {
                self.next += 1;
                token
            }
            None => Answer::End,
        }
    }
}

impl Feeder for FromTokens {
    fn feed(&mut self, piece: &[u8]) -> (usize, Answer) {
        if let Some(refusal) = self.refused {
            return (0, Answer::Refused(refusal));
        }
        if self.closed {
            return (0, Answer::Refused(refusal(19, self.consumed)));
        }
        let before = self.consumed;
        let end = before + piece.len();
        let due = self.events.get(self.next).filter(|event| event.waits_for < end.min(LIMIT));
        if let Some(event) = due {
            self.consumed = event.consumed;
            return (self.consumed - before, self.hand_out());
        }
        self.consumed = end.min(LIMIT);
        let answer = if end > LIMIT { self.refuse(refusal(1, LIMIT)) } else { Answer::More };
        (self.consumed - before, answer)
    }

    fn close(&mut self) -> Answer {
        match self.refused {
            Some(refusal) => Answer::Refused(refusal),
            None if self.closed => Answer::End,
            None => {
                self.closed = true;
                self.hand_out()
            }
        }
    }
}
