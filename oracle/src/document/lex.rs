//! Document 01, "How source becomes tokens", over bytes of any kind.

use std::num::IntErrorKind;
use std::ops::Range;

use crate::token::{Kind, Lexed, Refusal, Token, refusal};

fn is_blank(byte: u8) -> bool {
    matches!(byte, b' ' | b'\t' | b'\n' | b'\r')
}

fn goes_on_in_symbol(byte: u8) -> bool {
    !matches!(byte, b'(' | b')' | b';' | b'@' | 12) && !is_blank(byte)
}

fn starts_symbol(byte: u8) -> bool {
    goes_on_in_symbol(byte) && byte != b'-' && !byte.is_ascii_digit()
}

pub fn is_symbol(bytes: &[u8]) -> bool {
    match bytes.split_first() {
        Some((first, rest)) => starts_symbol(*first) && rest.iter().all(|byte| goes_on_in_symbol(*byte)),
        None => false,
    }
}

/// Tokens from a place up to the end or the first refusal.
pub fn tokens(source: &[u8], from: usize) -> Lexed {
    let mut found = Lexed::default();
    let mut at = from;
    loop {
        match next(source, at) {
            Ok(Some(token)) => {
                at = token.start + token.len;
                found.tokens.push(token);
            }
            Ok(None) => return found,
            Err(refusal) => {
                found.refusal = Some(refusal);
                return found;
            }
        }
    }
}

fn next(source: &[u8], from: usize) -> Result<Option<Token>, Refusal> {
    let start = skip(source, from)?;
    let rest = &source[start..];
    let Some(&first) = rest.first() else {
        return Ok(None);
    };
    let (kind, len) = match first {
        b'(' => (Kind::Open, 1),
        b')' => (Kind::Close, 1),
        b'@' => (Kind::At, 1),
        12 => return Err(refusal(3, start)),
        b'-' | b'0'..=b'9' => {
            let value = literal(rest).map_err(|number| refusal(number, start + refused_at(rest, number)))?;
            (Kind::Int(value), literal_len(rest))
        }
        _ => (Kind::Symbol, rest.iter().take_while(|byte| goes_on_in_symbol(**byte)).count()),
    };
    Ok(Some(Token { kind, start, len }))
}

/// Past blanks and comments.
fn skip(source: &[u8], from: usize) -> Result<usize, Refusal> {
    let mut at = from;
    loop {
        match &source[at..] {
            [byte, ..] if is_blank(*byte) => at += 1,
            [b';', rest @ ..] => {
                at += 1 + rest.iter().take_while(|byte| !matches!(byte, b'\n' | b'\r')).count()
            }
            [b'(', b';', rest @ ..] => match comment(rest) {
                Some(len) => at += 2 + len,
                None => return Err(refusal(4, at)),
            },
            _ => return Ok(at),
        }
    }
}

/// The bytes after `(;` up to and with the `;)` that closes it, if it is closed.
fn comment(rest: &[u8]) -> Option<usize> {
    let (mut open, mut at) = (1, 0);
    while open > 0 {
        let step = match &rest[at..] {
            [b'(', b';', ..] => {
                open += 1;
                2
            }
            [b';', b')', ..] => {
                open -= 1;
                2
            }
            [_, ..] => 1,
            [] => return None,
        };
        at += step;
    }
    Some(at)
}

/// A literal's parts: an optional sign, an optional prefix, then all that could be a digit.
struct Spelling {
    minus: bool,
    radix: u32,
    digits: Range<usize>,
}

fn spelling(bytes: &[u8]) -> Spelling {
    let minus = bytes.starts_with(b"-");
    let mut at = minus as usize;
    let radix = match &bytes[at..] {
        [b'0', b'x' | b'X', ..] => 16,
        [b'0', b'o' | b'O', ..] => 8,
        [b'0', b'b' | b'B', ..] => 2,
        _ => 10,
    };
    if radix != 10 {
        at += 2;
    }
    Spelling { minus, radix, digits: at..at + digits_len(&bytes[at..]) }
}

/// The run of all that could be a literal's digit.
pub fn digits_len(bytes: &[u8]) -> usize {
    bytes.iter().take_while(|byte| byte.is_ascii_hexdigit() || **byte == b'_').count()
}

/// A literal's length, good or not.
pub fn literal_len(bytes: &[u8]) -> usize {
    spelling(bytes).digits.end
}

/// The place in a literal that its refusal names: of 6 and 7 the digit's, else its start. The digit is found by the Rust alone: it is
/// the last of the shortest run of first digits that `from_str_radix` refuses so. It goes from the left, so that every longer run
/// is refused so too, and the run is found by halves.
pub fn refused_at(bytes: &[u8], number: u32) -> usize {
    let kind = match number {
        6 => IntErrorKind::InvalidDigit,
        7 => IntErrorKind::PosOverflow,
        _ => return 0,
    };
    let Spelling { radix, digits, .. } = spelling(bytes);
    let refused_so = |end: usize| {
        let run = bytes[digits.start..end].iter().filter(|byte| **byte != b'_');
        let run: String = run.map(|byte| *byte as char).collect();
        u128::from_str_radix(&run, radix).is_err_and(|error| *error.kind() == kind)
    };
    let (mut good, mut bad) = (digits.start, digits.end);
    assert!(refused_so(bad), "the Rust does not refuse {bytes:?} so");
    while good + 1 < bad {
        let middle = good + (bad - good) / 2;
        if refused_so(middle) { bad = middle } else { good = middle }
    }
    bad - 1
}

/// The integer, or the number of its refusal.
fn literal(bytes: &[u8]) -> Result<i128, u32> {
    let Spelling { minus, radix, digits } = spelling(bytes);
    number(&bytes[digits], radix as u128).and_then(|n| signed(minus, n))
}

fn number(digits: &[u8], radix: u128) -> Result<u128, u32> {
    let (mut value, mut any) = (0u128, false);
    for &byte in digits.iter().filter(|byte| **byte != b'_') {
        any = true;
        let digit = match byte {
            b'0'..=b'9' => byte - b'0',
            _ => (byte | 32) - b'a' + 10,
        } as u128;
        if digit >= radix {
            return Err(6);
        }
        value = value.checked_mul(radix).and_then(|grown| grown.checked_add(digit)).ok_or(7u32)?;
    }
    if any { Ok(value) } else { Err(5) }
}

/// Into the signed range modulo 2^128; 2^127 has no negative that a minus sign could spell.
fn signed(minus: bool, n: u128) -> Result<i128, u32> {
    if minus && n == 1 << 127 {
        return Err(8);
    }
    Ok(if minus { n.wrapping_neg() as i128 } else { n as i128 })
}
