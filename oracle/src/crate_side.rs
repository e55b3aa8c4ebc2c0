//! What the unchanged crate answers: tokens with places, symbols, and the layout of trees.
//! Where it has no answer (bytes that are not UTF-8, pieces, tables, unfitting empty lists, the fits test's count, settings), the documents';
//! and for trees with -2^127, which it prints as a decimal that its own lexer refuses.

use std::str::from_utf8;

use crate::answer::{Printed, Side};
use crate::document::lex::{self, literal_len, refused_at};
use crate::document::{calls, layout, read, settings, table};
use crate::drive::Feeder;
use crate::error::Error;
use crate::lexer::{Lexer, Token as CrateToken};
use crate::printer::{SExpr, ToSExpr, print_node};
use crate::token::{Kind, Lexed, Refusal, Token, refusal};
use crate::tree::Tree;

pub struct CrateSide;

impl Side for CrateSide {
    fn lex(&self, source: &[u8], from: usize) -> Lexed {
        match from_utf8(&source[from..]) {
            Ok(text) => tokens(text, from),
            Err(_) => lex::tokens(source, from),
        }
    }

    fn feeder(&self, source: &[u8]) -> Box<dyn Feeder> {
        Box::new(calls::FromTokens::new(source, &self.lex(source, 0)))
    }

    fn read(&self, source: &[u8]) -> Result<Vec<u8>, Refusal> {
        read::table(source, &self.lex(source, 0))
    }

    fn check(&self, table: &[u8]) -> Result<Vec<Tree>, Refusal> {
        table::trees(table, &is_symbol)
    }

    fn lay_out(&self, trees: &[Tree], width: usize) -> Printed {
        let page = layout::page(trees, width);
        let looked = page.looked;
        if page.unfitting_empty_list || !trees.iter().all(is_alike) {
            return Printed { text: page.out, looked };
        }
        let mut out = Vec::new();
        for (i, tree) in trees.iter().enumerate() {
            // the framing of the crate's own `print`, which takes its syntax trees alone
            if i > 0 {
                out.push(b'\n');
            }
            print_node(tree, width, &mut out).expect("a vector takes every byte");
            out.push(b'\n');
        }
        Printed { text: out, looked }
    }

    fn settings(&self, file: &[u8]) -> Result<Vec<settings::Setting>, usize> {
        settings::settings(file)
    }
}

/// The crate's tokens, read with `peek` before each `next`: `next` loses a token before an error.
fn tokens(text: &str, shift: usize) -> Lexed {
    let mut found = Lexed::default();
    let mut lexer = match Lexer::new(0, text) {
        Ok(lexer) => lexer,
        Err(error) => {
            found.refusal = Some(refused(error, text, shift));
            return found;
        }
    };
    while let Some((pos, token)) = lexer.peek() {
        let at = pos.offset;
        let (kind, len) = match token {
            CrateToken::LParen => (Kind::Open, 1),
            CrateToken::RParen => (Kind::Close, 1),
            CrateToken::At => (Kind::At, 1),
            CrateToken::Symbol(symbol) => (Kind::Symbol, symbol.len()),
            CrateToken::Int(value) => (Kind::Int(*value), literal_len(&text.as_bytes()[at..])),
        };
        found.tokens.push(Token { kind, start: at + shift, len });
        if let Err(error) = lexer.next() {
            found.refusal = Some(refused(error, text, shift));
            break;
        }
    }
    found
}

/// Document 01's number for an error of the crate's lexer; std's words tell 5, 6 and 7 apart. The crate points at a literal's start,
/// and `from_str_radix`, which it calls, tells the digit.
fn refused(error: Error, text: &str, shift: usize) -> Refusal {
    let Error::ParseError { msg, span } = error else {
        panic!("the lexer gave an error that is none of its own: {error:?}")
    };
    let number = match msg.as_str() {
        "unterminated block comment" => 4,
        "cannot parse integer from empty string" => 5,
        "invalid digit found in string" => 6,
        "number too large to fit in target type" => 7,
        "integer literal cannot fit in i128" => 8,
        other if other.starts_with("Unexpected character") => 3,
        other => panic!("the lexer gave a message without a number: {other}"),
    };
    let at = span.from.offset;
    refusal(number, at + refused_at(&text.as_bytes()[at..], number) + shift)
}

/// A symbol is what the crate reads as one, whole.
fn is_symbol(bytes: &[u8]) -> bool {
    match from_utf8(bytes) {
        Ok(text) => {
            let whole = Token { kind: Kind::Symbol, start: 0, len: bytes.len() };
            tokens(text, 0) == Lexed { tokens: vec![whole], refusal: None }
        }
        Err(_) => lex::is_symbol(bytes),
    }
}

/// The crate's print is the documents': it holds atoms as text, and all integers but the lowest have the same text there.
fn is_alike(tree: &Tree) -> bool {
    match tree {
        Tree::Symbol(bytes) => from_utf8(bytes).is_ok(),
        Tree::Int(value) => *value != i128::MIN,
        Tree::Binding(name, inner) => from_utf8(name).is_ok() && is_alike(inner),
        Tree::List(items) => items.iter().all(is_alike),
    }
}

impl ToSExpr for Tree {
    fn to_sexpr(&self) -> SExpr {
        let text = |bytes: &[u8]| from_utf8(bytes).expect("only text is printed here").to_string();
        match self {
            Tree::Symbol(bytes) => SExpr::Atom(text(bytes)),
            Tree::Int(value) => SExpr::Atom(value.to_string()),
            Tree::Binding(name, inner) => SExpr::Binding(text(name), Box::new(inner.to_sexpr())),
            Tree::List(items) => SExpr::List(items.iter().map(ToSExpr::to_sexpr).collect()),
        }
    }
}
