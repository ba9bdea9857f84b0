//! Calls to be counted by `rust/count`: on a ring of n leaves and a book of 96 runs of one random circular order, an intersection with the tree of 96
//! other runs of that order, and a conflict call on a chain of pairs, all of which its list names. Prints how often each call was made.
//!
//!     count n
use tokuwhape::Layout::Ring;
use tokuwhape::{aim, conflict, intersect, join, open, order, read, trial, write, Node, GROUPS, RECORDS, TEXT, WORDS};

/// Marsaglia's xorshift32.
struct Draws(u32);

impl Draws {
    fn below(&mut self, k: usize) -> usize {
        self.0 ^= self.0 << 13;
        self.0 ^= self.0 >> 17;
        self.0 ^= self.0 << 5;
        self.0 as usize % k
    }
}

/// A random circular order of the leaves 1 to n.
fn circle(n: usize, draws: &mut Draws) -> Vec<u16> {
    let mut order: Vec<u16> = (1..=n as u16).collect();
    for i in (1..n).rev() {
        order.swap(i, draws.below(i + 1));
    }
    order
}

/// So many leaves of the circle, from a place on.
fn run(circle: &[u16], start: usize, many: usize) -> Vec<u16> {
    circle.iter().cycle().skip(start).take(many).copied().collect()
}

/// The node table of the tree with these groups, made by the plain planner, so that no call counts for it.
fn grown(n: usize, groups: &[Vec<u16>]) -> Vec<Node> {
    let (mut nodes, mut book) = (vec![plain::Node::UNUSED; RECORDS], vec![0; WORDS]);
    plain::open(plain::Layout::Ring, n, &mut nodes, &mut book).expect("opened");
    for (count, group) in groups.iter().enumerate() {
        plain::join(plain::Layout::Ring, n, &mut nodes, &mut book, count, group).expect("kept");
    }
    nodes.iter().map(|&plain::Node { kind, count, items }| Node { kind, count, items }).collect()
}

/// A book of these groups, whatever a tree allows.
fn booked(groups: &[Vec<u16>]) -> Vec<u64> {
    let mut book = vec![0; WORDS];
    for (k, group) in groups.iter().enumerate() {
        for &leaf in group {
            book[4 * k + usize::from(leaf - 1) / 64] |= 1 << ((leaf - 1) % 64);
        }
    }
    book
}

fn main() {
    let n = std::env::args().nth(1).and_then(|n| n.parse().ok()).expect("count n");
    let mut draws = Draws(2463534242);
    let circle = circle(n, &mut draws);
    let runs: Vec<_> = (0..2 * GROUPS).map(|_| run(&circle, draws.below(n), 1 + draws.below(n - 1))).collect();
    let (groups, others) = runs.split_at(GROUPS);
    let (mut nodes, mut book) = (vec![Node::UNUSED; RECORDS], vec![0; WORDS]);
    open(Ring, n, &mut nodes, &mut book).expect("opened");
    for (count, group) in groups.iter().enumerate() {
        trial(Ring, n, &nodes, &book, count, group).expect("possible");
        join(Ring, n, &mut nodes, &mut book, count, group).expect("kept");
    }
    order(Ring, n, &nodes, &mut vec![0; n]).expect("in form");
    for k in 1..=GROUPS {
        aim(Ring, n, &nodes, &book, GROUPS, k).expect("consecutive");
    }
    intersect(Ring, n, &nodes, Ring, n, &grown(n, others), &mut vec![Node::UNUSED; RECORDS]).expect("of one order");
    let mut text = vec![0; TEXT];
    let length = write(Ring, n, &nodes, &mut text).expect("in form");
    read(Ring, n, &mut nodes, &mut book, &text[..length]).expect("a tree text");
    let pairs: Vec<_> = (1..n as u16 - 1).take(GROUPS).map(|leaf| vec![leaf, leaf + 1]).collect();
    let last = pairs.len() as u16 + 1;
    let named = conflict(Ring, n, &booked(&pairs), pairs.len(), &[1, last], &mut vec![0; GROUPS]).expect("a list");
    assert_eq!(named, pairs.len());
    println!("open 1 join {GROUPS} trial {GROUPS} order 1 aim {GROUPS} intersect 1 write 1 read 1 conflict 1");
}
