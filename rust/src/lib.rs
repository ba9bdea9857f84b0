//! Safe calls to the proved planner of a bag ring or rack.
//!
//! The functions of this crate pass lent tables on to the archive that `tools/archive tokuwhape` makes; [`Ring`] and [`Rack`] own their tables, and
//! [`RingFile`] is a file that was read through first. What each call answers, refuses and writes is proved in the Rattle crates `c_update`,
//! `c_order`, `c_conflict`, `c_text`, `c_intersection` and `c_file`.
//!
//! A ring is its number of leaves n (document 01's bins), a node table, a book of mark words and the count of groups in the book. So is a rack, which
//! has two ends: its [`Layout`] tells a call which of the two it is lent. Longer tables than the sizes below may be lent: what stands past the stated
//! size is never touched. A refusal leaves every table as it was.

mod bins;
mod refusal;
mod ring_file;
pub mod symbols;

pub use bins::{Bins, Circular, Orders, Rack, Ring, Straight};
pub use refusal::Refusal;
pub use ring_file::RingFile;
use symbols::*;

/// How the leaves hang. A rack is planned as a ring with one leaf more, the hidden end n + 1, which no list and no book may name: its node table and
/// its tree text are those of that ring.
#[repr(u8)]
#[derive(Clone, Copy, PartialEq, Eq, Debug)]
pub enum Layout {
    /// Round a circle: the run of a group may pass the seam before leaf 1.
    Ring = 0,
    /// In a line with two ends, which no run passes.
    Rack = 1,
}

/// Leaves of the largest ring; the largest rack has one less.
pub const LEAVES: usize = 256;
/// Records of a node table.
pub const RECORDS: usize = 256;
/// Items of a node record.
pub const ITEMS: usize = 255;
/// Groups of a book, and places of a conflict list.
pub const GROUPS: usize = 96;
/// Mark words of a book, four to a group.
pub const WORDS: usize = 384;
/// Bytes for a tree text to be written.
pub const TEXT: usize = 2048;
/// Bytes of the longest ring file, and for a test load to be written.
pub const FILE: usize = 65536;

/// A node record, 257 numbers of 16 bits; its fields are described in docs/NODE-TABLE.md.
#[repr(C)]
#[derive(Clone, Copy, PartialEq, Eq, Debug)]
pub struct Node {
    /// 0 unused, 1 a P-node, 2 a C-node, which has three items or more.
    pub kind: u16,
    /// How many items.
    pub count: u16,
    /// Leaves as their numbers, nodes as 256 plus the number of a record; then zeros.
    pub items: [u16; ITEMS],
}

impl Node {
    /// A record that is not used.
    pub const UNUSED: Node = Node { kind: 0, count: 0, items: [0; ITEMS] };
}

// A record is its kind, its count and its items, with nothing between them.
const _: () = assert!(size_of::<Node>() == (2 + ITEMS) * size_of::<u16>());

/// How many numbers of 16 bits the records are.
fn numbers(nodes: &[Node]) -> usize {
    size_of_val(nodes) / size_of::<u16>()
}

/// What an accepted ring file holds.
#[derive(Clone, Copy, PartialEq, Eq, Debug)]
pub struct File {
    /// How many names: the ring's number of leaves.
    pub names: usize,
    /// Bytes of the names line with its line end.
    pub head: usize,
    /// How many lines of values.
    pub lines: usize,
}

/// The answer of a call that is given where to write its number.
fn answer(call: impl FnOnce(*mut usize) -> u8) -> Result<usize, Refusal> {
    let mut value = 0;
    let number = call(&mut value);
    match Refusal::reported(number, value) {
        None => Ok(value),
        Some(refusal) => Err(refusal),
    }
}

// Each pointer below is a slice's or a local's, with the slice's size beside it, so it is valid for the call and never null; the borrow
// checker keeps the mutable ones apart from the others.

/// Opens a ring or a rack: writes the fresh tree and an empty book. Returns the count of groups, 0.
pub fn open(layout: Layout, n: usize, nodes: &mut [Node], book: &mut [u64]) -> Result<usize, Refusal> {
    answer(|value| unsafe { tokuwhape_open(layout as u8, n, nodes.as_mut_ptr(), numbers(nodes), book.as_mut_ptr(), book.len(), value) })
}

/// Joins the list's group, which may be empty: writes the new tree, and the group to the book's next place. Returns the new count of groups.
pub fn join(layout: Layout, n: usize, nodes: &mut [Node], book: &mut [u64], count: usize, list: &[u16]) -> Result<usize, Refusal> {
    answer(|value| unsafe {
        let (tree, marks) = (nodes.as_mut_ptr(), book.as_mut_ptr());
        tokuwhape_join(layout as u8, n, tree, numbers(nodes), marks, book.len(), count, list.as_ptr(), list.len(), value)
    })
}

/// Returns what joining the list's group would, and writes no table.
pub fn trial(layout: Layout, n: usize, nodes: &[Node], book: &[u64], count: usize, list: &[u16]) -> Result<usize, Refusal> {
    answer(|value| unsafe {
        let (tree, marks) = (nodes.as_ptr(), book.as_ptr());
        tokuwhape_trial(layout as u8, n, tree, numbers(nodes), marks, book.len(), count, list.as_ptr(), list.len(), value)
    })
}

/// Writes the standard order, a ring's from leaf 1, to the first n places. Returns n.
pub fn order(layout: Layout, n: usize, nodes: &[Node], order: &mut [u16]) -> Result<usize, Refusal> {
    answer(|value| unsafe { tokuwhape_order(layout as u8, n, nodes.as_ptr(), numbers(nodes), order.as_mut_ptr(), order.len(), value) })
}

/// Returns the aim of the book's group with this number from 1, the leaf in the middle of its run in the standard order: of two middle
/// places, counted from 0, the even one; of a ring's last place and place 0, place 0. An empty group has none.
pub fn aim(layout: Layout, n: usize, nodes: &[Node], book: &[u64], count: usize, group: usize) -> Result<usize, Refusal> {
    answer(|value| unsafe {
        tokuwhape_aim(layout as u8, n, nodes.as_ptr(), numbers(nodes), book.as_ptr(), book.len(), count, group, value)
    })
}

/// Writes the numbers of the book's groups that are in conflict with the list's group, rising, then zeros, to the first 96 places: none where
/// the whole book and the group can be consecutive together. Returns how many numbers.
pub fn conflict(layout: Layout, n: usize, book: &[u64], count: usize, list: &[u16], conflicts: &mut [u16]) -> Result<usize, Refusal> {
    answer(|value| unsafe {
        let numbers = conflicts.as_mut_ptr();
        tokuwhape_conflict(layout as u8, n, book.as_ptr(), book.len(), count, list.as_ptr(), list.len(), numbers, conflicts.len(), value)
    })
}

/// Writes the tree text, then zeros, to the first 2,048 bytes. Returns the length of the text.
pub fn write(layout: Layout, n: usize, nodes: &[Node], bytes: &mut [u8]) -> Result<usize, Refusal> {
    answer(|value| unsafe { tokuwhape_write(layout as u8, n, nodes.as_ptr(), numbers(nodes), bytes.as_mut_ptr(), bytes.len(), value) })
}

/// Reads a tree text, a rack's of n + 1 leaves: writes its tree, a P-node where the text has a C-node with two items, and an empty book. Returns
/// the count of groups, 0.
pub fn read(layout: Layout, n: usize, nodes: &mut [Node], book: &mut [u64], text: &[u8]) -> Result<usize, Refusal> {
    answer(|value| unsafe {
        let (tree, marks) = (nodes.as_mut_ptr(), book.as_mut_ptr());
        tokuwhape_read(layout as u8, n, tree, numbers(nodes), marks, book.len(), text.as_ptr(), text.len(), value)
    })
}

/// Writes the tree that allows exactly the orders allowed by the tree of n leaves and by that of m, of the same layout, to the third node table.
/// Returns 0.
pub fn intersect(
    layout: Layout,
    n: usize,
    nodes: &[Node],
    layout2: Layout,
    m: usize,
    other: &[Node],
    third: &mut [Node],
) -> Result<usize, Refusal> {
    answer(|value| unsafe {
        let (one, two, both) = (nodes.as_ptr(), other.as_ptr(), third.as_mut_ptr());
        tokuwhape_intersect(layout as u8, n, one, numbers(nodes), layout2 as u8, m, two, numbers(other), both, numbers(third), value)
    })
}

/// Writes the test load of n leaves with this seed, a ring file of so many groups that can all be consecutive together, then zeros, to the first
/// 65,536 bytes. Returns the length of the file.
///
/// ```
/// use tokuwhape::{test_load, Refusal, RingFile, FILE};
///
/// let mut bytes = vec![0; FILE];
/// let length = test_load(4, 1, 2, &mut bytes)?;
/// assert_eq!(&bytes[..length], b"1 2 3 4\n1 1 0 0\n1 0 1 1\n");
/// let file = RingFile::read(&bytes[..length])?;
/// let mut ring = file.ring();
/// for line in 0..file.lines() {
///     ring.join(&file.group(line).expect("there are so many lines"))?;
/// }
/// # Ok::<(), Refusal>(())
/// ```
pub fn test_load(n: usize, seed: u32, groups: usize, bytes: &mut [u8]) -> Result<usize, Refusal> {
    answer(|value| unsafe { tokuwhape_test_load(n, seed, groups, bytes.as_mut_ptr(), bytes.len(), value) })
}

/// Reads a ring file through. Returns what it holds; a malformed file is refused with its byte, from 0. [`RingFile::read`] does this first.
pub fn scan(file: &[u8]) -> Result<File, Refusal> {
    let (mut head, mut lines) = (0, 0);
    let names = answer(|value| unsafe { tokuwhape_scan(file.as_ptr(), file.len(), &mut head, &mut lines, value) })?;
    Ok(File { names, head, lines })
}

/// Returns the name of leaf k + 1 of an accepted file, as the part of the names line that it fills. Of any bytes it is word k of the first line,
/// parted at spaces; the empty part at the start of the file where there is no such word.
pub fn name_of(file: &[u8], k: usize) -> &[u8] {
    let mut start = 0;
    let length = unsafe { tokuwhape_name(file.as_ptr(), file.len(), k, &mut start) };
    &file[start..start + length]
}

/// Writes the leaves, rising, of value line `line`, from 0, of an accepted file that holds `shape`, and returns how many. Of any bytes and numbers
/// the line is the 2 * names bytes from head + line * 2 * names on, for up to 256 names. Where it does not stand whole in the file, or the list has
/// fewer places than there are names, nothing is written and 0 is returned. (`shape.lines` is not looked at.)
pub fn group_of(file: &[u8], shape: File, line: usize, list: &mut [u16]) -> usize {
    let File { names, head, .. } = shape;
    unsafe { tokuwhape_group(file.as_ptr(), file.len(), names, head, line, list.as_mut_ptr(), list.len()) }
}
