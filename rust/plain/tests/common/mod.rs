//! Bins in a ring or a rack with tables of their own, each with one entry past its stated size that must keep its value.

#![allow(dead_code)]

pub mod orders;
pub mod shapes;

use plain::{Answer, Layout, Node, Refused};

pub const UNUSED: Node = Node { kind: 0, count: 0, items: [0; 255] };
pub const PAST: Node = Node { kind: 77, count: 7_777, items: [777; 255] };

#[derive(Clone, PartialEq, Debug)]
pub struct Bins {
    pub layout: Layout,
    pub n: usize,
    pub nodes: Vec<Node>,
    pub book: Vec<u64>,
    pub count: usize,
}

impl Bins {
    /// Returns a fresh ring or rack.
    pub fn new(layout: Layout, n: usize) -> Bins {
        let mut bins = Bins { layout, n, nodes: vec![PAST; 257], book: vec![7; 385], count: 0 };
        assert_eq!(plain::open(layout, n, &mut bins.nodes, &mut bins.book), Ok(0));
        bins
    }

    /// Returns the ring or rack with the tree of this text, none if it is refused.
    pub fn of_text(layout: Layout, n: usize, text: &str) -> Option<Bins> {
        let mut bins = Bins::new(layout, n);
        plain::read(layout, n, &mut bins.nodes, &mut bins.book, text.as_bytes()).ok()?;
        Some(bins)
    }

    /// Tries and joins a group, checks that both answer alike and that a refusal changes nothing.
    pub fn join(&mut self, list: &[u16]) -> Answer {
        let before = self.clone();
        let tried = plain::trial(self.layout, self.n, &self.nodes, &self.book, self.count, list);
        let answer = plain::join(self.layout, self.n, &mut self.nodes, &mut self.book, self.count, list);
        assert_eq!(tried, answer);
        match answer {
            Ok(count) => self.count = count,
            Err(_) => assert!(*self == before),
        }
        assert!(self.nodes[256] == PAST && self.book[384] == 7);
        answer
    }

    /// Returns a fresh ring or rack with these groups, all of which are kept.
    pub fn with(layout: Layout, n: usize, lists: &[&[u16]]) -> Bins {
        let mut bins = Bins::new(layout, n);
        for list in lists {
            bins.join(list).unwrap();
        }
        bins
    }

    /// Returns the tree text, after checking that it is read back into the same table.
    pub fn text(&self) -> String {
        let mut bytes = vec![1; 2049];
        let length = plain::write(self.layout, self.n, &self.nodes, &mut bytes).unwrap();
        assert!(bytes[length..2048].iter().all(|&byte| byte == 0) && bytes[2048] == 1);
        let mut other = Bins::new(self.layout, self.n);
        assert_eq!(plain::read(self.layout, self.n, &mut other.nodes, &mut other.book, &bytes[..length]), Ok(0));
        assert!(other.nodes == self.nodes && other.book[..384].iter().all(|&word| word == 0));
        String::from_utf8(bytes[..length].to_vec()).unwrap()
    }

    /// Returns what the intersection with another gives, after checking that a refusal changes nothing.
    pub fn intersect(&self, other: &Bins) -> Result<Bins, Refused> {
        let mut both = Bins { nodes: vec![PAST; 257], ..Bins::new(self.layout, self.n) };
        let (one, two, third) = (&self.nodes, &other.nodes, &mut both.nodes);
        let answer = plain::intersect(self.layout, self.n, one, other.layout, other.n, two, third);
        let kept = if answer == Ok(0) { 256 } else { 0 };
        assert!(both.nodes[kept..].iter().all(|record| *record == PAST));
        answer.map(|_| both)
    }

    /// Returns the standard order.
    pub fn order(&self) -> Vec<u16> {
        let mut order = vec![777; self.n + 1];
        assert_eq!(plain::order(self.layout, self.n, &self.nodes, &mut order), Ok(self.n));
        assert_eq!(order.pop(), Some(777));
        order
    }

    /// Returns the conflict list of a group.
    pub fn conflict(&self, list: &[u16]) -> Vec<u16> {
        let mut places = vec![777; 97];
        let size = plain::conflict(self.layout, self.n, &self.book, self.count, list, &mut places).unwrap();
        assert!(places[size..96].iter().all(|&place| place == 0) && places[96] == 777);
        places.truncate(size);
        places
    }

    /// Returns the aim of the book's group with this number.
    pub fn aim(&self, group: usize) -> Answer {
        plain::aim(self.layout, self.n, &self.nodes, &self.book, self.count, group)
    }
}

/// Returns the refusal with this number and place.
pub fn refused<T>(number: u8, place: usize) -> Result<T, Refused> {
    Err(Refused { number, place })
}

/// A small generator of random numbers.
pub struct Random(pub u64);

impl Random {
    /// Returns a number below `limit`.
    pub fn below(&mut self, limit: usize) -> usize {
        self.0 ^= self.0 << 13;
        self.0 ^= self.0 >> 7;
        self.0 ^= self.0 << 17;
        (self.0 >> 11) as usize % limit
    }

    /// Returns the numbers 1 to n, shuffled.
    pub fn shuffled(&mut self, n: usize) -> Vec<u16> {
        let mut numbers: Vec<u16> = (1..=n as u16).collect();
        for k in (1..n).rev() {
            numbers.swap(k, self.below(k + 1));
        }
        numbers
    }

    /// Returns a layout that n bins may have.
    pub fn layout(&mut self, n: usize) -> Layout {
        [Layout::Ring, Layout::Rack][self.below(if n < 256 { 2 } else { 1 })]
    }

    /// Returns a run of an order, of up to `limit` bins, which in a ring may pass the seam. It may be empty.
    pub fn run(&mut self, layout: Layout, order: &[u16], limit: usize) -> Vec<u16> {
        let n = order.len();
        let size = self.below(limit.min(n) + 1);
        let starts = if layout == Layout::Ring { n } else { n + 1 - size };
        order.iter().cycle().skip(self.below(starts)).take(size).copied().collect()
    }
}
