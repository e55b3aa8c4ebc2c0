//! Document 01, "How a table is laid out", with document 02's text of -2^127. It says also where the crate would panic.

use crate::document::looking::looks;
use crate::tree::{Tree, cost, int_text};

pub struct Page {
    pub out: Vec<u8>,
    /// An empty list that doesn't fit was printed: here the crate has no answer.
    pub unfitting_empty_list: bool,
    /// How many costs the fits test looked at.
    pub looked: usize,
    column: usize,
    indent: usize,
    width: usize,
}

/// All trees, each with its LF, and one more LF between two.
pub fn page(trees: &[Tree], width: usize) -> Page {
    let mut page =
        Page { out: Vec::new(), unfitting_empty_list: false, looked: 0, column: 0, indent: 0, width };
    for (i, tree) in trees.iter().enumerate() {
        if i > 0 {
            page.out.push(b'\n');
        }
        page.column = 0;
        page.tree(tree, false);
        page.out.push(b'\n');
    }
    page
}

impl Page {
    fn put(&mut self, bytes: &[u8]) {
        self.out.extend(bytes);
        self.column += bytes.len();
    }

    /// The indent's spaces don't count in the column.
    fn new_line(&mut self) {
        self.out.push(b'\n');
        self.column = 0;
        self.out.extend(std::iter::repeat_n(b' ', 4 * self.indent));
    }

    fn fits(&mut self, list: &Tree) -> bool {
        self.looked += looks(self.width, self.column);
        self.column <= self.width && cost(list) <= self.width - self.column
    }

    fn tree(&mut self, tree: &Tree, one_line: bool) {
        match tree {
            Tree::Symbol(bytes) => self.put(bytes),
            Tree::Int(value) => self.put(int_text(*value).as_bytes()),
            Tree::Binding(name, inner) => {
                self.put(name);
                self.put(b" @ ");
                self.tree(inner, one_line);
            }
            Tree::List(items) => {
                if one_line || self.fits(tree) {
                    self.on_one_line(items)
                } else {
                    self.broken(items)
                }
            }
        }
    }

    fn on_one_line(&mut self, items: &[Tree]) {
        self.put(b"(");
        for (i, item) in items.iter().enumerate() {
            if i > 0 {
                self.put(b" ");
            }
            self.tree(item, true);
        }
        self.put(b")");
    }

    fn broken(&mut self, items: &[Tree]) {
        self.put(b"(");
        let Some((first, rest)) = items.split_first() else {
            self.unfitting_empty_list = true;
            return self.put(b")");
        };
        self.tree(first, false);
        self.indent += 1;
        for item in rest {
            self.new_line();
            self.tree(item, false);
        }
        self.indent -= 1;
        self.new_line();
        self.put(b")");
    }
}
