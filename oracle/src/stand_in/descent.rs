//! Reading and the table's check by recursive descent, where the expectations keep a stack.

use crate::document::lex;
use crate::token::{Kind, Lexed, Refusal, Token, refusal};
use crate::tree::{DEPTH, TABLE_LIMIT, Tree, int_text};

struct Source<'a> {
    bytes: &'a [u8],
    lexed: Lexed,
    next: usize,
}

/// The trees of a source, or the first of 3 to 13.
pub fn source_trees(bytes: &[u8]) -> Result<Vec<Tree>, Refusal> {
    let mut source = Source { bytes, lexed: lex::tokens(bytes, 0), next: 0 };
    let mut trees = Vec::new();
    while source.peek()?.is_some() {
        trees.push(source.tree(0, 9)?);
    }
    Ok(trees)
}

impl Source<'_> {
    /// The next token, the end, or the lexer's refusal, which is due when it is looked for.
    fn peek(&self) -> Result<Option<Token>, Refusal> {
        match (self.lexed.tokens.get(self.next), self.lexed.refusal) {
            (Some(token), _) => Ok(Some(*token)),
            (None, Some(refusal)) => Err(refusal),
            (None, None) => Ok(None),
        }
    }

    /// A tree with `depth` lists and bindings open; `stray` is what a `)` in its place is.
    fn tree(&mut self, depth: usize, stray: u32) -> Result<Tree, Refusal> {
        let Some(token) = self.peek()? else {
            return Err(refusal(12, self.bytes.len()));
        };
        self.next += 1;
        match token.kind {
            Kind::Int(value) => Ok(Tree::Int(value)),
            Kind::Close => Err(refusal(stray, token.start)),
            Kind::At => Err(refusal(11, token.start)),
            Kind::Open if depth == DEPTH => Err(refusal(13, token.start)),
            Kind::Open => self.items(token.start, depth + 1),
            Kind::Symbol => {
                let name = self.bytes[token.start..token.start + token.len].to_vec();
                // a refusal of the lexer that stands next is raised by whoever looks next
                if !matches!(self.peek(), Ok(Some(Token { kind: Kind::At, .. }))) {
                    return Ok(Tree::Symbol(name));
                }
                if depth == DEPTH {
                    return Err(refusal(13, token.start));
                }
                self.next += 1;
                Ok(Tree::Binding(name, Box::new(self.tree(depth + 1, 12)?)))
            }
        }
    }

    /// The items up to and with the list's `)`.
    fn items(&mut self, opener: usize, depth: usize) -> Result<Tree, Refusal> {
        let mut items = Vec::new();
        loop {
            match self.peek()? {
                None => return Err(refusal(10, opener)),
                Some(Token { kind: Kind::Close, .. }) => {
                    self.next += 1;
                    return Ok(Tree::List(items));
                }
                Some(_) => items.push(self.tree(depth, 9)?),
            }
        }
    }
}

/// The trees of a table, or the first of 15, 20, 21, 13 and 16; or 22 where a tree is due at the end; or 25.
pub fn table_trees(table: &[u8]) -> Result<Vec<Tree>, Refusal> {
    if table.len() > TABLE_LIMIT {
        return Err(refusal(1, TABLE_LIMIT));
    }
    let mut walk = Walk { table, at: 0, wrong: Vec::new() };
    let mut trees = Vec::new();
    while walk.at < table.len() {
        trees.push(walk.tree(0)?.0);
    }
    // they were met from the inside out
    walk.wrong.into_iter().min().map_or(Ok(trees), |first| Err(refusal(25, first)))
}

/// The table, the place that it has come to, and the lists so far whose stored cost is another than what was met in them.
struct Walk<'a> {
    table: &'a [u8],
    at: usize,
    wrong: Vec<usize>,
}

impl Walk<'_> {
    /// The tree that is due here with `depth` lists and bindings open, and its cost.
    fn tree(&mut self, depth: usize) -> Result<(Tree, usize), Refusal> {
        let start = self.at;
        let rest = &self.table[start..];
        if rest.len() < 6 {
            return Err(refusal(if rest.is_empty() { 22 } else { 15 }, start));
        }
        let word = |from: usize| (0..4).map(|i| (rest[from + i] as usize) << (8 * i)).sum::<usize>();
        let (len, kind) = (word(0), rest[4] as usize + 256 * rest[5] as usize);
        if len < 6 || len > rest.len() {
            return Err(refusal(15, start));
        }
        if kind == 0 || kind == 4 || kind > 5 {
            return Err(refusal(20, start));
        }
        if kind == 2 && len != 6 + 16 || kind == 5 && len != 6 + 4 + 4 {
            return Err(refusal(21, start));
        }
        if (kind == 3 || kind == 5) && depth == DEPTH {
            return Err(refusal(13, start));
        }
        let payload = &rest[6..len];
        if (kind == 1 || kind == 3) && !lex::is_symbol(payload) {
            return Err(refusal(16, start));
        }
        self.at += len;
        match kind {
            1 => Ok((Tree::Symbol(payload.to_vec()), len - 6)),
            2 => {
                let value = i128::from_le_bytes(payload.try_into().expect("22 bytes less 6"));
                Ok((Tree::Int(value), int_text(value).len()))
            }
            3 => {
                let (inner, cost) = self.tree(depth + 1)?;
                Ok((Tree::Binding(payload.to_vec(), Box::new(inner)), len - 6 + 3 + cost))
            }
            _ => {
                // each item with the one that its list adds for it, and the list's own
                let (mut items, mut cost) = (Vec::new(), 1);
                for _ in 0..word(6) {
                    let (item, of_item) = self.tree(depth + 1)?;
                    items.push(item);
                    cost += of_item + 1;
                }
                if word(10) != cost {
                    self.wrong.push(start);
                }
                Ok((Tree::List(items), cost))
            }
        }
    }
}
