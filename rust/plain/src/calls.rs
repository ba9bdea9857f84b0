//! The calls on lent tables. Each makes its checks in the sequence of the table of refusals, and a refusal leaves every
//! lent table as it was. Entries past a table's stated size are never touched.

use crate::book::{self, Book, GROUPS, WORDS};
use crate::layout::Layout;
use crate::load;
use crate::marks::{self, Marks};
use crate::ringfile::FILE_BYTES;
use crate::table::{Node, RECORDS};
use crate::text::TEXT_BYTES;
use crate::tree::Tree;

/// Why a call refuses: the cause's number, and the list place or byte where the cause has one, else 0.
#[derive(Clone, Copy, PartialEq, Eq, Debug)]
pub struct Refused {
    pub number: u8,
    pub place: usize,
}

/// What a call returns: its own answer or why it refuses.
pub type Answer = Result<usize, Refused>;

/// Returns the refusal with this number if `fits` does not hold.
fn check(number: u8, fits: bool) -> Result<(), Refused> {
    refuse_unless(fits, number, 0)
}

/// Returns the refusal with this number and place if `fits` does not hold.
pub(crate) fn refuse_unless(fits: bool, number: u8, place: usize) -> Result<(), Refused> {
    if fits {
        Ok(())
    } else {
        Err(Refused { number, place })
    }
}

/// Makes checks 1, 15 and 2: each count of bins is 1 to 256, that of a rack below 256, and each table, given as its
/// length and its stated size, is long enough.
fn check_sizes(bins: &[(Layout, usize)], tables: &[(usize, usize)]) -> Result<(), Refused> {
    check(1, bins.iter().all(|(_, n)| (1..=256).contains(n)))?;
    check(15, !bins.contains(&(Layout::Rack, 256)))?;
    check(2, tables.iter().all(|&(length, stated)| length >= stated))
}

/// Makes check 3 of the node table; returns its tree.
fn check_tree(layout: Layout, n: usize, nodes: &[Node]) -> Result<Tree, Refused> {
    Tree::load(layout.leaves(n), &nodes[..RECORDS]).ok_or(Refused { number: 3, place: 0 })
}

/// Makes check 3 of the book; returns its groups.
fn check_book(n: usize, book: &[u64], count: usize) -> Result<Book<'_>, Refused> {
    Book::checked(n, &book[..WORDS], count).ok_or(Refused { number: 3, place: 0 })
}

/// Makes checks 5 and 6 of a list, which may be empty; returns its marks.
fn check_list(n: usize, list: &[u16]) -> Result<Marks, Refused> {
    let mut group = [0; 4];
    for (place, &bin) in list.iter().enumerate() {
        let bin = usize::from(bin);
        refuse_unless((1..=n).contains(&bin), 5, place)?;
        refuse_unless(!marks::has(&group, bin - 1), 6, place)?;
        marks::set(&mut group, bin - 1);
    }
    Ok(group)
}

/// Makes the checks of joining but the last; returns the tree and the group's marks.
fn check_join(
    layout: Layout,
    n: usize,
    nodes: &[Node],
    book: &[u64],
    count: usize,
    list: &[u16],
) -> Result<(Tree, Marks), Refused> {
    check_sizes(&[(layout, n)], &[(nodes.len(), RECORDS), (book.len(), WORDS)])?;
    let tree = check_tree(layout, n, nodes)?;
    check_book(n, book, count)?;
    let group = check_list(n, list)?;
    check(7, count < GROUPS)?;
    Ok((tree, group))
}

/// Fills the node table with the fresh tree of n bins and empties the book. Returns 0, the count of groups.
pub fn open(layout: Layout, n: usize, nodes: &mut [Node], book: &mut [u64]) -> Answer {
    check_sizes(&[(layout, n)], &[(nodes.len(), RECORDS), (book.len(), WORDS)])?;
    nodes[..RECORDS].fill(Node::UNUSED);
    Tree::fresh(layout.leaves(n)).store(nodes);
    book[..WORDS].fill(0);
    Ok(0)
}

/// Joins the group in the list to the tree and the book. Returns the new count of groups.
pub fn join(layout: Layout, n: usize, nodes: &mut [Node], book: &mut [u64], count: usize, list: &[u16]) -> Answer {
    let (mut tree, group) = check_join(layout, n, nodes, book, count, list)?;
    check(8, tree.join(&group))?;
    tree.store(nodes);
    book::put(book, count, &group);
    Ok(count + 1)
}

/// Answers as joining would and changes nothing.
pub fn trial(layout: Layout, n: usize, nodes: &[Node], book: &[u64], count: usize, list: &[u16]) -> Answer {
    let (tree, group) = check_join(layout, n, nodes, book, count, list)?;
    check(8, tree.fits(&group))?;
    Ok(count + 1)
}

/// Writes the standard order into the first n places of `order`. Returns n.
pub fn order(layout: Layout, n: usize, nodes: &[Node], order: &mut [u16]) -> Answer {
    check_sizes(&[(layout, n)], &[(nodes.len(), RECORDS), (order.len(), n)])?;
    layout.order(&check_tree(layout, n, nodes)?, &mut order[..n]);
    Ok(n)
}

/// Returns the bin at which the book's group with this number, from 1, has its aim in the standard order.
pub fn aim(layout: Layout, n: usize, nodes: &[Node], book: &[u64], count: usize, group: usize) -> Answer {
    check_sizes(&[(layout, n)], &[(nodes.len(), RECORDS), (book.len(), WORDS)])?;
    let tree = check_tree(layout, n, nodes)?;
    let book = check_book(n, book, count)?;
    check(9, (1..=count).contains(&group))?;
    let group = book.group(group - 1);
    check(14, marks::size(&group) > 0)?;
    let mut order = [0; 256];
    layout.order(&tree, &mut order[..n]);
    layout.aim(&order[..n], &group).ok_or(Refused { number: 10, place: 0 })
}

/// Writes the numbers, rising, of the book's groups that are in conflict with the group in the list, then zeros to
/// 96 places. Returns how many they are, 0 if the whole book and the group can hang together.
pub fn conflict(layout: Layout, n: usize, book: &[u64], count: usize, list: &[u16], conflicts: &mut [u16]) -> Answer {
    check_sizes(&[(layout, n)], &[(book.len(), WORDS), (conflicts.len(), GROUPS)])?;
    let book = check_book(n, book, count)?;
    let group = check_list(n, list)?;
    let kept = book.conflict(layout.leaves(n), &group);
    conflicts[..GROUPS].copy_from_slice(&kept.numbers);
    Ok(kept.size)
}

/// Writes the tree text, then zeros to 2,048 bytes. Returns the text's length.
pub fn write(layout: Layout, n: usize, nodes: &[Node], bytes: &mut [u8]) -> Answer {
    check_sizes(&[(layout, n)], &[(nodes.len(), RECORDS), (bytes.len(), TEXT_BYTES)])?;
    let tree = check_tree(layout, n, nodes)?;
    let length = tree.write_text(&mut bytes[..TEXT_BYTES]);
    bytes[length..TEXT_BYTES].fill(0);
    Ok(length)
}

/// Fills the node table with the tree of the text, a P-node where the text has a C-node with two items, and empties the
/// book. Returns 0, the count of groups.
pub fn read(layout: Layout, n: usize, nodes: &mut [Node], book: &mut [u64], text: &[u8]) -> Answer {
    check_sizes(&[(layout, n)], &[(nodes.len(), RECORDS), (book.len(), WORDS)])?;
    let tree = Tree::read_text(layout.leaves(n), text).map_err(|place| Refused { number: 12, place })?;
    nodes[..RECORDS].fill(Node::UNUSED);
    tree.store(nodes);
    book[..WORDS].fill(0);
    Ok(0)
}

/// Fills the third node table with the tree that allows exactly the orders allowed by both of the others, of n and of m
/// bins. Returns 0.
pub fn intersect(
    layout: Layout,
    n: usize,
    nodes: &[Node],
    layout2: Layout,
    m: usize,
    other: &[Node],
    third: &mut [Node],
) -> Answer {
    let (bins, other_bins) = ((layout, n), (layout2, m));
    check_sizes(&[bins, other_bins], &[nodes.len(), other.len(), third.len()].map(|length| (length, RECORDS)))?;
    check(13, bins == other_bins)?;
    let mut tree = check_tree(layout, n, nodes)?;
    let other = check_tree(layout, n, other)?;
    check(8, tree.intersect(&other))?;
    third[..RECORDS].fill(Node::UNUSED);
    tree.store(third);
    Ok(0)
}

/// Writes the ring file of the test load of n bins with this seed and so many groups, then zeros to 65,536 bytes.
/// Returns the file's length.
pub fn test_load(n: usize, seed: u32, groups: usize, bytes: &mut [u8]) -> Answer {
    check(1, (1..=256).contains(&n))?;
    check(16, seed != 0)?;
    check(17, (1..=GROUPS).contains(&groups))?;
    check(2, bytes.len() >= FILE_BYTES)?;
    let length = load::write_file(n, seed, groups, &mut bytes[..FILE_BYTES]);
    bytes[length..FILE_BYTES].fill(0);
    Ok(length)
}
