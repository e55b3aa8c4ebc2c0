//! The input: a source as the crate's trees, and the parts of it that both sides are measured on.

use crate::generate;
use crate::lexer::{Lexer, Token};
use crate::printer::SExpr;

/// The longest source that the library takes, the part that growth is measured from, and one whose table and text fit the program's rooms.
const LIMIT: usize = 1_048_576;
const PART: usize = 65_536;
const SMALL: usize = 24_576;

/// Writes the input, its part, and the part as often as it goes into the limit, so that growth compares like with like; and a
/// list and nested lists, each of both lengths, and lists of several depths that never fit. The input is a file's, or generated
/// where there is no file's name.
pub fn write(from: &str, folder: &str) -> Result<(), String> {
    let text = match from {
        "" => generate::text(LIMIT),
        file => std::fs::read_to_string(file).map_err(|error| format!("{file}: {error}"))?,
    };
    let part = front(&text, PART)?;
    let grown = part.repeat(LIMIT / part.len().max(1));
    let (whole, small) = (front(&text, LIMIT)?, front(&text, SMALL)?);
    let [list, list_part] = [LIMIT, PART].map(|bytes| generate::nested(1, bytes));
    let [nest, nest_part] = [LIMIT, PART].map(|bytes| generate::nested(60, bytes));
    let [deep_1, deep_16, deep_64] = [1, 16, 64].map(generate::deep);
    let texts = [
        ("whole", whole),
        ("part", part),
        ("grown", &grown),
        ("small", small),
        ("list", &list),
        ("list_part", &list_part),
        ("nest", &nest),
        ("nest_part", &nest_part),
        ("deep_1", &deep_1),
        ("deep_16", &deep_16),
        ("deep_64", &deep_64),
    ];
    for (name, text) in texts {
        std::fs::write(format!("{folder}/{name}"), text).map_err(|error| format!("{folder}: {error}"))?;
    }
    Ok(())
}

/// A tree with the place where it starts.
pub struct Tree {
    pub start: usize,
    pub tree: SExpr,
}

/// The trees of a source. The crate has no reader of trees, so this one is the driver's.
pub fn trees(text: &str) -> Result<Vec<SExpr>, String> {
    Ok(placed(text)?.into_iter().map(|tree| tree.tree).collect())
}

pub fn placed(text: &str) -> Result<Vec<Tree>, String> {
    let mut lexer = Lexer::new(0, text).map_err(|error| format!("{error:?}"))?;
    let mut found = Vec::new();
    while let Some(start) = lexer.peek().map(|(pos, _)| pos.offset) {
        found.push(Tree { start, tree: tree(&mut lexer)? });
    }
    Ok(found)
}

fn tree(lexer: &mut Lexer) -> Result<SExpr, String> {
    let (_, token) = next(lexer)?.ok_or("the source ends within a tree")?;
    match token {
        Token::LParen => {
            let mut items = Vec::new();
            while !matches!(lexer.peek(), Some((_, Token::RParen))) {
                items.push(tree(lexer)?);
            }
            next(lexer)?;
            Ok(SExpr::List(items))
        }
        Token::Symbol(name) if matches!(lexer.peek(), Some((_, Token::At))) => {
            next(lexer)?;
            Ok(SExpr::Binding(name, Box::new(tree(lexer)?)))
        }
        Token::Symbol(name) => Ok(SExpr::Atom(name)),
        Token::Int(value) => Ok(SExpr::Atom(value.to_string())),
        Token::RParen | Token::At => Err("a tree cannot start with this token".to_string()),
    }
}

fn next<'s>(lexer: &mut Lexer<'s>) -> Result<Option<(crate::lexer::Pos, Token)>, String> {
    lexer.next().map_err(|error| format!("{error:?}"))
}

/// The whole trees at the front of a source that take at most `most` bytes.
fn front(text: &str, most: usize) -> Result<&str, String> {
    if text.len() <= most {
        return Ok(text);
    }
    let starts = placed(text)?;
    let end = starts.iter().map(|tree| tree.start).take_while(|start| *start <= most).last();
    Ok(&text[..end.unwrap_or(0)])
}
