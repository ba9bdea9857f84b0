//! The proved planner and the plain one side by side on the same tables.
use crate::damaged::plain_layout;
use std::collections::BTreeMap;
use std::fmt::{self, Debug};
use tokuwhape::{Layout, Node};

/// A call's answer: its number when done, or the refusal's number and the place or byte it names, 0 where none.
pub type Answer = Result<usize, (u8, usize)>;

/// A ring or a rack of n leaves, as a call is told.
#[derive(Clone, Copy, PartialEq, Eq, Debug)]
pub struct Size {
    pub layout: Layout,
    pub n: usize,
}

impl Size {
    /// How many leaves its tree has.
    pub fn leaves(self) -> usize {
        match self.layout {
            Layout::Ring => self.n,
            Layout::Rack => self.n + 1,
        }
    }
}

/// A call, and what it is given beside the size and the tables.
#[derive(Clone, Copy)]
pub enum Call<'a> {
    Open,
    Join(usize, &'a [u16]),
    Trial(usize, &'a [u16]),
    Order,
    Aim(usize, usize),
    Conflict(usize, &'a [u16]),
    Write,
    Read(&'a [u8]),
    /// With a tree of this size.
    Intersect(Size),
}

impl Call<'_> {
    fn name(&self) -> &'static str {
        match self {
            Call::Open => "open",
            Call::Join(..) => "join",
            Call::Trial(..) => "trial",
            Call::Order => "order",
            Call::Aim(..) => "aim",
            Call::Conflict(..) => "conflict",
            Call::Write => "write",
            Call::Read(..) => "read",
            Call::Intersect(..) => "intersect",
        }
    }
}

impl Debug for Call<'_> {
    fn fmt(&self, f: &mut fmt::Formatter) -> fmt::Result {
        match self {
            Call::Join(count, list) | Call::Trial(count, list) | Call::Conflict(count, list) => {
                write!(f, "{} of {list:?}, {count} groups", self.name())
            }
            Call::Aim(count, group) => write!(f, "aim of {group}, {count} groups"),
            Call::Read(text) => write!(f, "read of {:?}", String::from_utf8_lossy(text)),
            Call::Intersect(other) => write!(f, "intersect with {other:?}"),
            _ => write!(f, "{}", self.name()),
        }
    }
}

/// How often each call, or a call on inputs of some kind, gave each answer on rings or on racks: 0 for done, else the refusal's number.
#[derive(Default)]
pub struct Tally(BTreeMap<(&'static str, u8, u8), usize>);

impl Tally {
    pub fn count(&mut self, call: &'static str, layout: Layout, answer: &Answer) {
        let number = answer.map_or_else(|(number, _)| number, |_| 0);
        *self.0.entry((call, layout as u8, number)).or_default() += 1;
    }

    /// How many of these calls were made.
    pub fn made(&self, call: &str) -> usize {
        self.0.iter().filter(|((name, ..), _)| *name == call).map(|(_, times)| times).sum()
    }

    /// The answers that this call gave, each with how often.
    pub fn given(&self, call: &str, layout: Layout) -> BTreeMap<u8, usize> {
        let given = self.0.iter().filter(|((name, lent, _), _)| (*name, *lent) == (call, layout as u8));
        given.map(|((.., number), times)| (*number, *times)).collect()
    }
}

/// The tables that one side's calls are lent. An intersection is of `nodes` and `other`, and fills `third`.
#[derive(Clone, PartialEq)]
pub struct Tables<N> {
    pub nodes: Vec<N>,
    pub other: Vec<N>,
    pub third: Vec<N>,
    pub book: Vec<u64>,
    pub order: Vec<u16>,
    pub conflicts: Vec<u16>,
    pub bytes: Vec<u8>,
}

/// The same tables for both sides.
#[derive(Clone)]
pub struct Sides {
    pub ours: Tables<Node>,
    pub theirs: Tables<plain::Node>,
}

fn plain_nodes(nodes: &[Node]) -> Vec<plain::Node> {
    nodes.iter().map(|node| plain::Node { kind: node.kind, count: node.count, items: node.items }).collect()
}

fn same_nodes(ours: &[Node], theirs: &[plain::Node]) -> bool {
    let same = |(a, b): (&Node, &plain::Node)| a.kind == b.kind && a.count == b.count && a.items == b.items;
    ours.len() == theirs.len() && ours.iter().zip(theirs).all(same)
}

fn ours(Size { layout, n }: Size, call: Call, t: &mut Tables<Node>) -> Answer {
    let answer = match call {
        Call::Open => tokuwhape::open(layout, n, &mut t.nodes, &mut t.book),
        Call::Join(count, list) => tokuwhape::join(layout, n, &mut t.nodes, &mut t.book, count, list),
        Call::Trial(count, list) => tokuwhape::trial(layout, n, &t.nodes, &t.book, count, list),
        Call::Order => tokuwhape::order(layout, n, &t.nodes, &mut t.order),
        Call::Aim(count, group) => tokuwhape::aim(layout, n, &t.nodes, &t.book, count, group),
        Call::Conflict(count, list) => tokuwhape::conflict(layout, n, &t.book, count, list, &mut t.conflicts),
        Call::Write => tokuwhape::write(layout, n, &t.nodes, &mut t.bytes),
        Call::Read(text) => tokuwhape::read(layout, n, &mut t.nodes, &mut t.book, text),
        Call::Intersect(other) => tokuwhape::intersect(layout, n, &t.nodes, other.layout, other.n, &t.other, &mut t.third),
    };
    answer.map_err(crate::told)
}

fn theirs(Size { layout, n }: Size, call: Call, t: &mut Tables<plain::Node>) -> Answer {
    let layout = plain_layout(layout);
    let answer = match call {
        Call::Open => plain::open(layout, n, &mut t.nodes, &mut t.book),
        Call::Join(count, list) => plain::join(layout, n, &mut t.nodes, &mut t.book, count, list),
        Call::Trial(count, list) => plain::trial(layout, n, &t.nodes, &t.book, count, list),
        Call::Order => plain::order(layout, n, &t.nodes, &mut t.order),
        Call::Aim(count, group) => plain::aim(layout, n, &t.nodes, &t.book, count, group),
        Call::Conflict(count, list) => plain::conflict(layout, n, &t.book, count, list, &mut t.conflicts),
        Call::Write => plain::write(layout, n, &t.nodes, &mut t.bytes),
        Call::Read(text) => plain::read(layout, n, &mut t.nodes, &mut t.book, text),
        Call::Intersect(other) => plain::intersect(layout, n, &t.nodes, plain_layout(other.layout), other.n, &t.other, &mut t.third),
    };
    answer.map_err(|refused| (refused.number, refused.place))
}

impl Sides {
    /// Both sides' tables: these nodes and this book, and the others of their stated size, but no tables of an intersection.
    pub fn new(nodes: Vec<Node>, book: Vec<u64>) -> Sides {
        let (order, conflicts, bytes) = (vec![0; 256], vec![0; 96], vec![0; 2048]);
        let theirs = Tables {
            nodes: plain_nodes(&nodes),
            other: Vec::new(),
            third: Vec::new(),
            book: book.clone(),
            order: order.clone(),
            conflicts: conflicts.clone(),
            bytes: bytes.clone(),
        };
        Sides { ours: Tables { nodes, other: Vec::new(), third: Vec::new(), book, order, conflicts, bytes }, theirs }
    }

    /// Both sides' node tables for an intersection, and no other tables.
    pub fn of_two(nodes: &[Node], other: &[Node], third: &[Node]) -> Sides {
        let mut sides = Sides::new(nodes.to_vec(), Vec::new());
        (sides.theirs.other, sides.theirs.third) = (plain_nodes(other), plain_nodes(third));
        (sides.ours.other, sides.ours.third) = (other.to_vec(), third.to_vec());
        sides.refill(0, 0, 0, 0);
        sides
    }

    /// Lends both sides other tables to fill: so many places, each with an old number in it.
    pub fn refill(&mut self, order: usize, conflicts: usize, bytes: usize, old: u16) {
        for (table, places) in [(&mut self.ours.order, order), (&mut self.ours.conflicts, conflicts)] {
            table.clear();
            table.resize(places, old);
        }
        self.ours.bytes.clear();
        self.ours.bytes.resize(bytes, old as u8);
        self.theirs.order.clone_from(&self.ours.order);
        self.theirs.conflicts.clone_from(&self.ours.conflicts);
        self.theirs.bytes.clone_from(&self.ours.bytes);
    }

    /// Whether every table is the same on both sides, whole.
    fn same(&self) -> bool {
        let (a, b) = (&self.ours, &self.theirs);
        same_nodes(&a.nodes, &b.nodes)
            && same_nodes(&a.other, &b.other)
            && same_nodes(&a.third, &b.third)
            && a.book == b.book
            && a.order == b.order
            && a.conflicts == b.conflicts
            && a.bytes == b.bytes
    }

    /// Makes one call on both sides, compares answers and tables, and counts it. Returns the answer.
    pub fn call(&mut self, tally: &mut Tally, size: Size, call: Call) -> Answer {
        let before = self.ours.clone();
        let answer = ours(size, call, &mut self.ours);
        let other = theirs(size, call, &mut self.theirs);
        assert_eq!(answer, other, "{size:?}, {call:?}, lent {}", shown(&before));
        assert!(self.same(), "tables differ: {size:?}, {call:?}, lent {}", shown(&before));
        assert!(answer.is_ok() || self.ours == before, "refused and changed: {size:?}, {call:?}, lent {}", shown(&before));
        tally.count(call.name(), size.layout, &answer);
        answer
    }

    /// The tree text that a call of write left, of this length.
    pub fn text(&self, length: usize) -> Vec<u8> {
        self.ours.bytes[..length].to_vec()
    }
}

/// The lent trees and book without the records and words that are zero.
fn shown(tables: &Tables<Node>) -> String {
    let (nodes, other, book) = (records(&tables.nodes), records(&tables.other), &tables.book);
    format!("{nodes}, other {other}, {} words {:?}", book.len(), brief(book))
}

/// The records that are not zero.
fn records(nodes: &[Node]) -> String {
    let used = nodes.iter().enumerate().filter(|(_, node)| **node != Node::UNUSED);
    let used: Vec<String> = used.map(|(at, node)| format!("{at}: {} {} {:?}", node.kind, node.count, brief(&node.items))).collect();
    format!("{} records {used:?}", nodes.len())
}

/// The entries up to the last that is not zero.
fn brief<T: PartialEq + Default>(entries: &[T]) -> &[T] {
    let used = entries.iter().rposition(|entry| *entry != T::default()).map_or(0, |last| last + 1);
    &entries[..used]
}
