//! Rings and racks that own their tables.
use crate::{Layout, Node, Refusal, GROUPS, RECORDS, TEXT, WORDS};
use std::fmt::Debug;
use std::marker::PhantomData;

const IN_FORM: &str = "the tables of a ring or a rack are in form";

mod sealed {
    pub trait Sealed {}
}

/// The orders that leaves hang in: [`Circular`] or [`Straight`].
pub trait Orders: sealed::Sealed + Copy + Eq + Debug {
    /// What a call on lent tables is told.
    const LAYOUT: Layout;
}

/// The orders of a ring.
#[derive(Clone, Copy, PartialEq, Eq, Debug)]
pub struct Circular;

/// The orders of a rack.
#[derive(Clone, Copy, PartialEq, Eq, Debug)]
pub struct Straight;

impl sealed::Sealed for Circular {}
impl Orders for Circular {
    const LAYOUT: Layout = Layout::Ring;
}

impl sealed::Sealed for Straight {}
impl Orders for Straight {
    const LAYOUT: Layout = Layout::Rack;
}

/// A ring with its node table and book.
///
/// ```
/// use tokuwhape::{Refusal, Ring};
///
/// let mut ring = Ring::new(5)?;
/// assert_eq!(ring.join(&[1, 3]), Ok(1));
/// assert_eq!(ring.order(), [1, 2, 4, 5, 3]);
/// // bin 3 stands at the last place, next to bin 1 at place 0: of these two the aim is the bin at place 0
/// assert_eq!(ring.aim(1), Ok(1));
/// // a group with no bins takes a place of the book and has no aim
/// assert_eq!(ring.join(&[]), Ok(2));
/// assert_eq!(ring.aim(2), Err(Refusal::NoAim));
/// assert_eq!(ring.text(), "1 P(P(2 4 5) 3)");
/// # Ok::<(), Refusal>(())
/// ```
pub type Ring = Bins<Circular>;

/// A rack, which has two ends, with its node table and book.
///
/// ```
/// use tokuwhape::{Rack, Refusal};
///
/// let mut rack = Rack::new(5)?;
/// for pair in [[1, 3], [3, 5], [2, 4], [1, 4]] {
///     rack.join(&pair)?;
/// }
/// assert_eq!(rack.order(), [2, 4, 1, 3, 5]);
/// // bins 2 and 5 would hang together round a ring, but no run passes the ends of a rack
/// assert_eq!(rack.join(&[2, 5]), Err(Refusal::Impossible));
/// assert_eq!(rack.conflict(&[2, 5]), Ok(vec![1, 2, 3, 4]));
/// // bins 4 and 1 stand at places 1 and 2: of these two the aim is the bin at the even place
/// assert_eq!(rack.aim(4), Ok(1));
/// // the tree is that of a ring with one bin more, the hidden end bin 6
/// assert_eq!(rack.text(), "1 C(3 5 6 2 4)");
/// # Ok::<(), Refusal>(())
/// ```
pub type Rack = Bins<Straight>;

/// A ring or a rack with its node table and book: see [`Ring`] and [`Rack`].
#[derive(Clone, PartialEq, Eq, Debug)]
pub struct Bins<O: Orders> {
    orders: PhantomData<O>,
    n: usize,
    nodes: Box<[Node]>,
    book: Box<[u64]>,
    count: usize,
}

impl<O: Orders> Bins<O> {
    /// n leaves whose tables no call has filled yet.
    fn unopened(n: usize) -> Self {
        Bins { orders: PhantomData, n, nodes: vec![Node::UNUSED; RECORDS].into(), book: vec![0; WORDS].into(), count: 0 }
    }

    /// The fresh ring or rack of n leaves, with an empty book.
    pub fn new(n: usize) -> Result<Self, Refusal> {
        let mut bins = Self::unopened(n);
        bins.count = crate::open(O::LAYOUT, n, &mut bins.nodes, &mut bins.book)?;
        Ok(bins)
    }

    /// The ring or rack of n leaves with the tree that the text describes, a P-node where the text has a C-node with two items, and an empty book.
    /// A rack's text is that of a ring of n + 1 leaves.
    pub fn from_text(n: usize, text: &str) -> Result<Self, Refusal> {
        let mut bins = Self::unopened(n);
        bins.count = crate::read(O::LAYOUT, n, &mut bins.nodes, &mut bins.book, text.as_bytes())?;
        Ok(bins)
    }

    /// The ring or rack with the tree that allows exactly the orders allowed by both trees, and an empty book. No book is read, so its conflict lists
    /// know no group of either.
    ///
    /// A ring and a rack have no orders in common:
    ///
    /// ```compile_fail,E0308
    /// use tokuwhape::{Rack, Refusal, Ring};
    ///
    /// let both = Ring::new(5)?.intersect(&Rack::new(5)?);
    /// # Ok::<(), Refusal>(())
    /// ```
    pub fn intersect(&self, other: &Self) -> Result<Self, Refusal> {
        let mut both = Self::unopened(self.n);
        crate::intersect(O::LAYOUT, self.n, &self.nodes, O::LAYOUT, other.n, &other.nodes, &mut both.nodes)?;
        Ok(both)
    }

    /// How many leaves the ring or rack has, a rack's hidden end not counted.
    pub fn leaves(&self) -> usize {
        self.n
    }

    /// How many groups the book has.
    pub fn groups(&self) -> usize {
        self.count
    }

    /// Joins the group, which may be empty, and returns how many groups the book then has, which is the group's number.
    pub fn join(&mut self, group: &[u16]) -> Result<usize, Refusal> {
        self.count = crate::join(O::LAYOUT, self.n, &mut self.nodes, &mut self.book, self.count, group)?;
        Ok(self.count)
    }

    /// Returns what joining the group would, and changes nothing.
    pub fn trial(&self, group: &[u16]) -> Result<usize, Refusal> {
        crate::trial(O::LAYOUT, self.n, &self.nodes, &self.book, self.count, group)
    }

    /// The standard order, a ring's from leaf 1.
    pub fn order(&self) -> Vec<u16> {
        let mut order = vec![0; self.n];
        crate::order(O::LAYOUT, self.n, &self.nodes, &mut order).expect(IN_FORM);
        order
    }

    /// The aim of the book's group with this number from 1, the leaf in the middle of its run in the standard order: of two middle places,
    /// counted from 0, the even one; of a ring's last place and place 0, place 0. An empty group has none.
    pub fn aim(&self, group: usize) -> Result<usize, Refusal> {
        crate::aim(O::LAYOUT, self.n, &self.nodes, &self.book, self.count, group)
    }

    /// The numbers of the book's groups that are in conflict with the group, rising.
    pub fn conflict(&self, group: &[u16]) -> Result<Vec<u16>, Refusal> {
        let mut conflicts = vec![0; GROUPS];
        let numbers = crate::conflict(O::LAYOUT, self.n, &self.book, self.count, group, &mut conflicts)?;
        conflicts.truncate(numbers);
        Ok(conflicts)
    }

    /// The tree text, a rack's that of a ring of n + 1 leaves.
    pub fn text(&self) -> String {
        let mut bytes = vec![0; TEXT];
        let length = crate::write(O::LAYOUT, self.n, &self.nodes, &mut bytes).expect(IN_FORM);
        bytes.truncate(length);
        String::from_utf8(bytes).expect("a tree text is ASCII")
    }
}
