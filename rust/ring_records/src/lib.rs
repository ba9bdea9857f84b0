//! The calls of the Rattle crate `record_calls`, which are lent node records, from the archive that `tools/archive test_records` makes.
mod symbols;

use symbols::*;

/// How the leaves hang: in a ring, or in a rack, whose tables are those of a ring with one leaf more.
#[repr(u8)]
#[derive(Clone, Copy, PartialEq, Eq, Debug)]
pub enum Layout {
    Ring = 0,
    Rack = 1,
}

/// A node record; its fields are described in docs/NODE-TABLE.md.
#[repr(C)]
#[derive(Clone, Copy, PartialEq, Eq, Debug)]
pub struct Node {
    pub kind: u8,
    pub count: u16,
    pub items: [u16; 255],
}

impl Node {
    /// A record that is not used.
    pub const UNUSED: Node = Node { kind: 0, count: 0, items: [0; 255] };
}

/// What a call returns: its own answer, or the refusal's number and the place or byte that it names, 0 where none.
pub type Answer = Result<usize, (u8, usize)>;

/// The answer of a call that is given where to write its number.
fn answer(call: impl FnOnce(*mut usize) -> u8) -> Answer {
    let mut value = 0;
    match call(&mut value) {
        0 => Ok(value),
        number => Err((number, value)),
    }
}

// Each pointer below is a slice's or a local's, with the slice's length beside it.

/// Opens a ring or a rack: writes the fresh tree and an empty book. Returns the count of groups, 0.
pub fn open(layout: Layout, n: usize, nodes: &mut [Node], book: &mut [u64]) -> Answer {
    answer(|value| unsafe { ring_open(layout as u8, n, nodes.as_mut_ptr(), nodes.len(), book.as_mut_ptr(), book.len(), value) })
}

/// Joins the list's group, which may be empty: writes the new tree, and the group to the book's next place. Returns the new count of groups.
pub fn join(layout: Layout, n: usize, nodes: &mut [Node], book: &mut [u64], count: usize, list: &[u16]) -> Answer {
    answer(|value| unsafe {
        let (tree, marks) = (nodes.as_mut_ptr(), book.as_mut_ptr());
        ring_join(layout as u8, n, tree, nodes.len(), marks, book.len(), count, list.as_ptr(), list.len(), value)
    })
}

/// Returns what joining the list's group would, and writes no table.
pub fn trial(layout: Layout, n: usize, nodes: &[Node], book: &[u64], count: usize, list: &[u16]) -> Answer {
    answer(|value| unsafe {
        let (tree, marks) = (nodes.as_ptr(), book.as_ptr());
        ring_trial(layout as u8, n, tree, nodes.len(), marks, book.len(), count, list.as_ptr(), list.len(), value)
    })
}

/// Writes the standard order, a ring's from leaf 1, to the first n places. Returns n.
pub fn order(layout: Layout, n: usize, nodes: &[Node], order: &mut [u16]) -> Answer {
    answer(|value| unsafe { ring_order(layout as u8, n, nodes.as_ptr(), nodes.len(), order.as_mut_ptr(), order.len(), value) })
}

/// Returns the leaf that is the aim, in the standard order, of the book's group with this number from 1; an empty group has none.
pub fn aim(layout: Layout, n: usize, nodes: &[Node], book: &[u64], count: usize, group: usize) -> Answer {
    answer(|value| unsafe { ring_aim(layout as u8, n, nodes.as_ptr(), nodes.len(), book.as_ptr(), book.len(), count, group, value) })
}

/// Writes the tree text, then zeros, to the first 2,048 bytes. Returns the length of the text.
pub fn write(layout: Layout, n: usize, nodes: &[Node], bytes: &mut [u8]) -> Answer {
    answer(|value| unsafe { ring_write(layout as u8, n, nodes.as_ptr(), nodes.len(), bytes.as_mut_ptr(), bytes.len(), value) })
}

/// Reads a tree text, a rack's of n + 1 leaves: writes its tree and an empty book. Returns the count of groups, 0.
pub fn read(layout: Layout, n: usize, nodes: &mut [Node], book: &mut [u64], text: &[u8]) -> Answer {
    answer(|value| unsafe {
        let (tree, marks) = (nodes.as_mut_ptr(), book.as_mut_ptr());
        ring_read(layout as u8, n, tree, nodes.len(), marks, book.len(), text.as_ptr(), text.len(), value)
    })
}

/// Writes the tree that allows exactly the orders allowed by both trees, of n leaves and of m and of one layout, to the third node table. Returns 0.
pub fn intersect(layout: Layout, n: usize, nodes: &[Node], layout2: Layout, m: usize, other: &[Node], third: &mut [Node]) -> Answer {
    answer(|value| unsafe {
        let (one, two, both) = (nodes.as_ptr(), other.as_ptr(), third.as_mut_ptr());
        ring_intersect(layout as u8, n, one, nodes.len(), layout2 as u8, m, two, other.len(), both, third.len(), value)
    })
}
