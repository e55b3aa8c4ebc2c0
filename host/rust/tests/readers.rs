//! A reader that fails now and then loses no token: after its error the tokens go on, and its parts can be had back.

use std::collections::VecDeque;
use std::io::{self, ErrorKind, Read};

use tulbazhik::{FeedError, Feeder, Parts, Token, TokensFrom, tokens};

/// Gives its pieces and errors in order, then the end, and counts the bytes that it gave.
struct Scripted {
    events: VecDeque<Result<&'static [u8], ErrorKind>>,
    given: usize,
}

impl Read for Scripted {
    fn read(&mut self, into: &mut [u8]) -> io::Result<usize> {
        match self.events.pop_front() {
            None => Ok(0),
            Some(Err(kind)) => Err(kind.into()),
            Some(Ok(piece)) => {
                let n = piece.len().min(into.len());
                into[..n].copy_from_slice(&piece[..n]);
                if n < piece.len() {
                    self.events.push_front(Ok(&piece[n..]));
                }
                self.given += n;
                Ok(n)
            }
        }
    }
}

const SOURCE: &[u8] = b"(rule 0xf x@y) 12";

/// The source with an error wherever one can hurt: in a symbol, a literal, behind `(`, between two tokens, before the end.
fn scripted() -> Scripted {
    let events = [
        Ok(&b"("[..]),
        Err(ErrorKind::WouldBlock),
        Ok(b"ru"),
        Err(ErrorKind::TimedOut),
        Err(ErrorKind::Interrupted),
        Ok(b"le 0x"),
        Err(ErrorKind::WouldBlock),
        Ok(b"f x@y) 12"),
        Err(ErrorKind::WouldBlock),
    ];
    Scripted { events: events.into(), given: 0 }
}

/// What an item is, with its bytes.
fn shown<R: Read>(tokens: &TokensFrom<R>, item: Result<Token, FeedError>) -> Result<String, ErrorKind> {
    match item {
        Ok(token) => {
            let spelling = String::from_utf8_lossy(tokens.spelling(&token));
            Ok(format!("{}..{} {spelling}", token.start, token.end()))
        }
        Err(FeedError::Read(error)) => Err(error.kind()),
        Err(FeedError::Refused(error)) => panic!("{error}"),
    }
}

#[test]
fn the_tokens_go_on_after_an_error() {
    use ErrorKind::{TimedOut, WouldBlock};
    for chunk in [1, 3, 1 << 16] {
        let mut tokens = Feeder::new().tokens_from_in(scripted(), chunk);
        let mut items = Vec::new();
        while let Some(item) = tokens.next() {
            items.push(shown(&tokens, item));
        }
        let expected = [
            Err(WouldBlock),
            Ok("0..1 ("),
            Err(TimedOut),
            Ok("1..5 rule"),
            Err(WouldBlock),
            Ok("6..9 0xf"),
            Ok("10..11 x"),
            Ok("11..12 @"),
            Ok("12..13 y"),
            Ok("13..14 )"),
            Err(WouldBlock),
            Ok("15..17 12"),
        ];
        assert_eq!(items, expected.map(|item| item.map(str::to_string)), "chunks of {chunk}");
        assert!(tokens.next().is_none(), "the end stays");
    }
}

#[test]
fn a_refusal_is_the_last_item() {
    let mut tokens = Feeder::new().tokens_from(&b"(a 12ab) b"[..]);
    assert!(matches!((tokens.next(), tokens.next()), (Some(Ok(_)), Some(Ok(_)))));
    let Some(Err(FeedError::Refused(error))) = tokens.next() else { panic!("12ab is refused") };
    assert_eq!((error.number, error.place), (6, 5));
    assert!(tokens.next().is_none());
    assert!(tokens.next().is_none());
}

#[test]
fn the_parts_lose_no_byte() {
    let whole: Vec<Token> = tokens(SOURCE).map(|token| token.expect("no refusal")).collect();
    for chunk in [1, 3, 1 << 16] {
        // taken apart before the first item, after the first, and so on past the end
        for taken in 0..15 {
            let mut tokens = Feeder::new().tokens_from_in(scripted(), chunk);
            let mut found: Vec<Token> = tokens.by_ref().take(taken).filter_map(Result::ok).collect();
            let Parts { feeder, reader, held, rest } = tokens.into_parts();
            let place = feeder.place();
            assert_eq!(rest, &SOURCE[place..reader.given], "what was read and not consumed");
            assert_eq!(held, &SOURCE[place - held.len()..place], "what is held was consumed last");

            let mut tokens = feeder.tokens_from_in(io::Cursor::new(rest).chain(reader), chunk);
            let mut first = true;
            while let Some(item) = tokens.next() {
                let Ok(token) = item else { continue };
                if first && !held.is_empty() {
                    assert_eq!(held, &SOURCE[token.start..place], "the held bytes begin its spelling");
                } else {
                    assert_eq!(tokens.spelling(&token), &SOURCE[token.range()]);
                }
                first = false;
                found.push(token);
            }
            assert_eq!(found, whole, "chunks of {chunk}, taken apart after {taken} items");
        }
    }
}
