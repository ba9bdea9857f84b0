//! The node table: 256 records in the sequence in which the tree text opens its nodes.

use crate::tree::{is_node, leaf, number, Item, Kind, Tree, NONE, ROOT};

/// How many records a node table has.
pub const RECORDS: usize = 256;

/// A record of the node table: kind 1 is a P-node, 2 a C-node, which has at least three items, 0 unused. The first
/// `count` items are leaves, as their numbers, and nodes, as 256 plus the number of their record; the others are zero.
#[repr(C)]
#[derive(Clone, Copy, PartialEq, Eq, Debug)]
pub struct Node {
    pub kind: u16,
    pub count: u16,
    pub items: [u16; 255],
}

impl Node {
    /// The unused record.
    pub const UNUSED: Node = Node { kind: 0, count: 0, items: [0; 255] };

    /// Returns the record's kind of node if its count fits and its unused items are zero.
    fn checked_kind(&self) -> Option<Kind> {
        let count = usize::from(self.count);
        if !(2..=255).contains(&count) || self.items[count..] != Node::UNUSED.items[count..] {
            return None;
        }
        match (self.kind, count) {
            (1, _) => Some(Kind::P),
            (2, 3..) => Some(Kind::C),
            _ => None,
        }
    }
}

impl Tree {
    /// Returns the tree of n leaves whose table `nodes` is, none if it is no tree's. `nodes` has 256 records.
    pub fn load(n: usize, nodes: &[Node]) -> Option<Tree> {
        let used = nodes.iter().take_while(|record| record.kind != 0).count();
        if (used == 0) != (n < 3) || nodes[used..].iter().any(|record| *record != Node::UNUSED) {
            return None;
        }
        let mut tree = Tree::bare(n);
        for record in &nodes[..used] {
            tree.open(record.checked_kind()?);
        }
        let mut ends = [0; RECORDS];
        let mut seen = 1;
        for record in (0..used).rev() {
            seen += tree.load_items(record, &nodes[record], &mut ends)?;
        }
        (used == 0 || seen == n && ends[0] == used && tree.least_fault(|_| 0).is_none()).then_some(tree)
    }

    /// Gives the node of a record its items and returns how many leaves they are, none if an item does not fit.
    /// `ends` holds, for each later record, the record after those below it, and is given this one's: the nodes
    /// among the items must be the record after this one, then the one after those below it, and so on.
    fn load_items(&mut self, record: usize, node: &Node, ends: &mut [usize; RECORDS]) -> Option<usize> {
        let n = self.leaves();
        let parent = ROOT + record as Item;
        let mut leaves = 0;
        let mut end = record + 1;
        for &item in &node.items[..usize::from(node.count)] {
            let item = usize::from(item);
            let child = if (2..=n).contains(&item) && self.parent(leaf(item)) == NONE {
                leaves += 1;
                leaf(item)
            } else if item == 256 + end && end < self.nodes() {
                end = ends[end];
                item as Item
            } else {
                return None;
            };
            self.append(parent, child);
        }
        ends[record] = end;
        self.set_first(parent);
        Some(leaves)
    }

    /// Writes the tree's table over a table that is in form or zero. `nodes` has 256 records.
    pub fn store(&self, nodes: &mut [Node]) {
        let mut record_of = [0; RECORDS];
        let mut filled = [0; RECORDS];
        let mut opened = 0;
        let mut item = if self.leaves() < 3 { NONE } else { ROOT };
        while item != NONE {
            let mut value = number(item);
            if is_node(item) {
                record_of[usize::from(item - ROOT)] = opened;
                value = 256 + opened as u16;
                self.store_head(item, &mut nodes[opened]);
                opened += 1;
            }
            if item != ROOT {
                let record = record_of[usize::from(self.parent(item) - ROOT)];
                nodes[record].items[filled[record]] = value;
                filled[record] += 1;
            }
            item = self.after(item);
        }
        let unused = nodes[opened..RECORDS].iter_mut().take_while(|record| record.kind != 0);
        unused.for_each(|record| *record = Node::UNUSED);
    }

    /// Writes the kind and count of a node over a record in form or zero, and zeros where its items end.
    fn store_head(&self, node: Item, record: &mut Node) {
        let (count, before) = (self.degree(node), record.count);
        record.kind = 1 + u16::from(self.kind(node) == Kind::C);
        record.count = count;
        if count < before {
            record.items[usize::from(count)..usize::from(before)].fill(0);
        }
    }
}
