//! Document 01, "Trees and their table": the reader over tokens, with its open lists and bindings on a stack, and with them what
//! document 02 has stored of a list once it is closed: its cost.

use crate::token::{Kind, Lexed, Refusal, refusal};
use crate::tree::{DEPTH, in_4_bytes, int_text, put_list, put_record};

enum Open {
    /// Its `(`, where its record stands in the table, the items so far, and what they cost.
    List { at: usize, record_at: usize, items: usize, cost: usize },
    /// What its name and ` @ ` cost.
    Binding { cost: usize },
}

struct Reader {
    table: Vec<u8>,
    open: Vec<Open>,
}

impl Reader {
    fn push(&mut self, open: Open, place: usize) -> Result<(), Refusal> {
        if self.open.len() == DEPTH {
            return Err(refusal(13, place));
        }
        self.open.push(open);
        Ok(())
    }

    /// A tree of this cost is complete, and with it each binding that waited for it.
    fn complete(&mut self, mut tree: usize) {
        while let Some(Open::Binding { cost }) = self.open.last() {
            tree += cost;
            self.open.pop();
        }
        if let Some(Open::List { items, cost, .. }) = self.open.last_mut() {
            *items += 1;
            *cost += tree;
        }
    }

    fn close(&mut self, place: usize) -> Result<(), Refusal> {
        match self.open.pop() {
            None => Err(refusal(9, place)),
            Some(Open::Binding { .. }) => Err(refusal(12, place)),
            Some(Open::List { record_at, items, cost, .. }) => {
                // only now is it known how many items there are and what they cost
                let (cost, mut record) = (cost + items + 1, Vec::new());
                put_list(&mut record, items as u32, in_4_bytes(cost));
                self.table[record_at..record_at + record.len()].copy_from_slice(&record);
                self.complete(cost);
                Ok(())
            }
        }
    }
}

/// The whole table, or the first refusal in source order.
pub fn table(source: &[u8], lexed: &Lexed) -> Result<Vec<u8>, Refusal> {
    let mut reader = Reader { table: Vec::new(), open: Vec::new() };
    let mut tokens = lexed.tokens.iter().peekable();
    while let Some(token) = tokens.next() {
        let bytes = &source[token.start..token.start + token.len];
        match token.kind {
            Kind::Open => {
                let record_at = reader.table.len();
                reader.push(Open::List { at: token.start, record_at, items: 0, cost: 0 }, token.start)?;
                put_list(&mut reader.table, 0, 0);
            }
            Kind::Close => reader.close(token.start)?,
            Kind::At => return Err(refusal(11, token.start)),
            // the `@` decides that the symbol is a name, and so when a 65th binding is refused
            Kind::Symbol if tokens.next_if(|after| after.kind == Kind::At).is_some() => {
                reader.push(Open::Binding { cost: token.len + 3 }, token.start)?;
                put_record(&mut reader.table, 3, bytes);
            }
            Kind::Symbol => {
                put_record(&mut reader.table, 1, bytes);
                reader.complete(token.len);
            }
            Kind::Int(value) => {
                put_record(&mut reader.table, 2, &value.to_le_bytes());
                reader.complete(int_text(value).len());
            }
        }
    }
    match (lexed.refusal, reader.open.last()) {
        (Some(refusal), _) => Err(refusal),
        (None, Some(Open::Binding { .. })) => Err(refusal(12, source.len())),
        (None, Some(Open::List { at, .. })) => Err(refusal(10, *at)),
        (None, None) => Ok(reader.table),
    }
}
