//! A seeded xorshift64 generator, and what is drawn from it.
use crate::damage::Choose;
use crate::tables::Size;
use tokuwhape::Layout::{self, Rack, Ring};

pub struct Draw(u64);

impl Draw {
    /// The generator with this seed, which is not 0.
    pub fn new(seed: u64) -> Draw {
        Draw(seed)
    }

    /// The next state.
    pub fn number(&mut self) -> u64 {
        self.0 ^= self.0 << 13;
        self.0 ^= self.0 >> 7;
        self.0 ^= self.0 << 17;
        self.0
    }

    /// A number below k.
    pub fn below(&mut self, k: usize) -> usize {
        (self.number() >> 11) as usize % k
    }

    /// True one time in k.
    pub fn one_in(&mut self, k: usize) -> bool {
        self.below(k) == 0
    }

    /// One of these.
    pub fn pick<T: Copy>(&mut self, from: &[T]) -> T {
        from[self.below(from.len())]
    }

    /// Puts these in a random sequence.
    pub fn shuffle<T>(&mut self, entries: &mut [T]) {
        for i in (1..entries.len()).rev() {
            entries.swap(i, self.below(i + 1));
        }
    }

    /// The leaves 1 to n in a random sequence.
    pub fn leaves(&mut self, n: usize) -> Vec<u16> {
        let mut leaves: Vec<u16> = (1..=n as u16).collect();
        self.shuffle(&mut leaves);
        leaves
    }

    /// A number of leaves, small ones more often.
    pub fn many(&mut self) -> usize {
        let most = self.pick(&[6, 10, 10, 20, 70, 256]);
        if self.one_in(40) {
            return self.pick(&[63, 64, 65, 127, 128, 129, 191, 192, 193, 255, 256]);
        }
        1 + self.below(most)
    }

    /// A ring or a rack of n leaves; a ring of 256.
    pub fn laid(&mut self, n: usize) -> Size {
        Size { layout: if n < 256 { self.pick(&[Ring, Rack]) } else { Ring }, n }
    }

    /// A size of a ring or of a rack, small ones more often.
    pub fn size(&mut self) -> Size {
        let n = self.many();
        self.laid(n)
    }

    /// A size that no ring and no rack has, or one close to this: the other layout with as many leaves, with or without the hidden end.
    pub fn other_size(&mut self, size: Size) -> Size {
        let Size { layout, n } = size;
        match layout {
            _ if self.one_in(2) => Size { layout, n: self.pick(&[0, 257, 258, 65_535, 65_536, usize::MAX, n - 1, n + 1]) },
            Ring => Size { layout: Rack, n: self.pick(&[256, n, n - 1]) },
            Rack => self.pick(&[Size { layout, n: 256 }, Size { layout: Ring, n }, Size { layout: Ring, n: n + 1 }]),
        }
    }

    /// How many leaves a group has: 1 to `most`, now and then none.
    fn group_size(&mut self, most: usize) -> usize {
        if self.one_in(12) {
            return 0;
        }
        1 + self.below(most)
    }

    /// A group that is a run of the order `hidden`, a ring's past the seam too, now and then an empty one.
    pub fn run(&mut self, layout: Layout, hidden: &[u16]) -> Vec<u16> {
        let n = hidden.len();
        let most = if self.one_in(2) { n } else { n.min(5) };
        let length = self.group_size(most);
        let start = self.below(if layout == Ring { n } else { n + 1 - length });
        let mut group: Vec<u16> = (start..start + length).map(|i| hidden[i % n]).collect();
        self.shuffle(&mut group);
        group
    }

    /// A group of any leaves, now and then of none.
    pub fn group(&mut self, n: usize) -> Vec<u16> {
        let mut leaves = self.leaves(n);
        let most = if self.one_in(2) { n } else { n.min(4) };
        leaves.truncate(self.group_size(most));
        leaves
    }

    /// A list that may be no group: with a number outside 1 to n, with a leaf twice, or several of these. It may be empty.
    pub fn list(&mut self, n: usize) -> Vec<u16> {
        let mut list = self.group(n.clamp(1, 300));
        for _ in 0..1 + self.below(2) {
            let at = self.below(list.len() + 1);
            match self.below(6) {
                0 => list.clear(),
                1 => list.insert(at, 0),
                2 => list.insert(at, (n % 65_536) as u16 + 1),
                3 => list.insert(at, self.pick(&[256, 257, 320, 65_535])),
                4 => list.insert(at, self.pick(&[1, 2, 3])),
                _ => list.extend(list.clone()),
            }
        }
        list
    }
}

impl Choose for Draw {
    fn below(&mut self, k: usize) -> usize {
        Draw::below(self, k)
    }
}
