//! The tree text: written from a tree, and read into one.

use crate::marks::{self, Marks};
use crate::tree::{is_node, leaf, number, Item, Kind, Tree, NONE, ROOT};

/// How many bytes a written tree text has room for.
pub const TEXT_BYTES: usize = 2048;

/// Bytes written one after another into a lent slice.
pub struct Output<'a> {
    pub bytes: &'a mut [u8],
    pub len: usize,
}

impl Output<'_> {
    /// Writes these bytes.
    pub fn put(&mut self, bytes: &[u8]) {
        self.bytes[self.len..][..bytes.len()].copy_from_slice(bytes);
        self.len += bytes.len();
    }

    /// Writes a number below 1,000.
    pub fn put_number(&mut self, value: u16) {
        let digits = [value / 100, value / 10 % 10, value % 10].map(|digit| b'0' + digit as u8);
        let zeros = usize::from(value < 100) + usize::from(value < 10);
        self.put(&digits[zeros..]);
    }
}

impl Tree {
    /// Writes the tree text to the front of `bytes`, which has 2,048 places; returns its length.
    pub fn write_text(&self, bytes: &mut [u8]) -> usize {
        let mut out = Output { bytes, len: 0 };
        out.put(b"1");
        let mut item = self.top();
        if item != NONE {
            out.put(b" ");
        }
        while item != NONE {
            if is_node(item) {
                out.put(if self.kind(item) == Kind::P { b"P(" } else { b"C(" });
                item = self.head(item);
                continue;
            }
            out.put_number(number(item));
            while item != NONE && self.next(item) == NONE {
                item = self.parent(item);
                if item != NONE {
                    out.put(b")");
                }
            }
            item = self.next(item);
            if item != NONE {
                out.put(b" ");
            }
        }
        out.len
    }

    /// Returns the tree of n leaves with this text, in which a C-node may have two items and is a P-node then, else the
    /// byte at which the text is malformed.
    pub fn read_text(n: usize, text: &[u8]) -> Result<Tree, usize> {
        let fixed: &[u8] = match n {
            1 => b"1",
            2 => b"1 2",
            _ => b"1 ",
        };
        let alike = text.iter().zip(fixed).take_while(|(a, b)| a == b).count();
        if alike < fixed.len() {
            return Err(alike);
        }
        if n < 3 {
            return if text.len() == alike { Ok(Tree::bare(n)) } else { Err(alike) };
        }
        let mut reader = Reader::new(n, text, alike);
        reader.read_nodes()?;
        let Reader { mut tree, start, .. } = reader;
        for record in (0..tree.nodes()).rev() {
            tree.set_first(ROOT + record as Item);
        }
        if let Some(byte) = tree.least_fault(|item| start[usize::from(item)]) {
            return Err(byte);
        }
        tree.name_threes();
        Ok(tree)
    }
}

/// Reads the shape of a tree text from n = 3 on. Every step ends at the first byte with which no such text begins.
struct Reader<'a> {
    n: usize,
    text: &'a [u8],
    at: usize,
    tree: Tree,
    /// Where each item starts in the text.
    start: [usize; 512],
    /// The leaves not yet read.
    left: Marks,
    left_size: usize,
    /// How many of them have a number that begins with the digits of each number.
    left_beginning: [usize; 257],
    /// How many leaves at least are still to come, so that each open node gets two items.
    need: usize,
}

impl<'a> Reader<'a> {
    fn new(n: usize, text: &'a [u8], at: usize) -> Reader<'a> {
        let mut left = marks::all(n);
        left[0] &= !1;
        let mut left_beginning = [0; 257];
        for beginning in (2..=n).flat_map(beginnings) {
            left_beginning[beginning] += 1;
        }
        let tree = Tree::bare(n);
        Reader { n, text, at, tree, start: [0; 512], left, left_size: n - 1, left_beginning, need: 0 }
    }

    /// Returns the byte at hand, or the text's length as the error.
    fn peek(&self) -> Result<u8, usize> {
        self.text.get(self.at).copied().ok_or(self.at)
    }

    /// Passes the byte at hand if `fits`, else returns its place as the error.
    fn pass(&mut self, fits: bool) -> Result<(), usize> {
        if !fits {
            return Err(self.at);
        }
        self.at += 1;
        Ok(())
    }

    /// Reads the node next to leaf 1 to the text's end.
    fn read_nodes(&mut self) -> Result<(), usize> {
        let mut node = self.read_open(NONE)?;
        loop {
            match self.peek()? {
                b'P' | b'C' => {
                    node = self.read_open(node)?;
                    continue;
                }
                _ => self.read_leaf(node)?,
            }
            while self.peek()? == b')' {
                let up = self.tree.parent(node);
                let last = up == NONE;
                self.pass(self.tree.degree(node) >= 2 && (!last || self.left_size == 0))?;
                if last {
                    return if self.at == self.text.len() { Ok(()) } else { Err(self.at) };
                }
                node = up;
            }
            let space = self.peek()? == b' ';
            let more = self.left_size > self.need || self.tree.degree(node) < 2;
            self.pass(space && more)?;
        }
    }

    /// Adds an item that starts at byte `start` to an open node, none for the text's first node.
    fn add(&mut self, node: Item, item: Item, start: usize) {
        self.start[usize::from(item)] = start;
        if node != NONE {
            self.need -= usize::from(self.tree.degree(node) < 2);
            self.tree.append(node, item);
        }
    }

    /// Reads `P(` or `C(` as the start of an item of `node`; returns the new node.
    fn read_open(&mut self, node: Item) -> Result<Item, usize> {
        let start = self.at;
        let kind = match self.peek()? {
            b'P' => Kind::P,
            b'C' => Kind::C,
            _ => return Err(start),
        };
        let filled = usize::from(node != NONE && self.tree.degree(node) < 2);
        self.pass(self.left_size >= self.need - filled + 2)?;
        let open = self.peek()? == b'(';
        self.pass(open)?;
        let child = self.tree.open(kind);
        self.add(node, child, start);
        self.need += 2;
        Ok(child)
    }

    /// Reads a leaf not yet read as an item of `node`.
    fn read_leaf(&mut self, node: Item) -> Result<(), usize> {
        let start = self.at;
        let mut value = 0;
        loop {
            let byte = self.peek()?;
            if !byte.is_ascii_digit() {
                break;
            }
            value = 10 * value + usize::from(byte - b'0');
            self.pass((1..=self.n).contains(&value) && self.left_beginning[value] > 0)?;
        }
        if value == 0 || !marks::has(&self.left, value - 1) {
            return Err(self.at);
        }
        marks::clear(&mut self.left, value - 1);
        self.left_size -= 1;
        for beginning in beginnings(value) {
            self.left_beginning[beginning] -= 1;
        }
        self.add(node, leaf(value), start);
        Ok(())
    }
}

/// Returns the numbers whose digits a number of at most three digits begins with, and zeros.
fn beginnings(value: usize) -> [usize; 3] {
    [value, value / 10, value / 100]
}
