//! Test loads: the ring file of groups that are all runs of one random circle, drawn from a seed.

use crate::text::Output;

/// Marsaglia's xorshift32. Its state is not 0.
#[derive(Clone, Copy, PartialEq, Eq, Debug)]
pub struct Generator {
    pub state: u32,
}

/// A number drawn, and the generator after it.
#[derive(Clone, Copy, PartialEq, Eq, Debug)]
pub struct Draw {
    pub next: Generator,
    pub number: usize,
}

impl Generator {
    /// Returns a number from 1 to k: the next state modulo k, plus 1.
    pub fn draw(self, k: usize) -> Draw {
        let mut state = self.state;
        state ^= state << 13;
        state ^= state >> 17;
        state ^= state << 5;
        Draw { next: Generator { state }, number: state as usize % k + 1 }
    }

    /// Draws a number from 1 to k and goes to the next state; returns the number.
    pub fn take(&mut self, k: usize) -> usize {
        let Draw { next, number } = self.draw(k);
        *self = next;
        number
    }

    /// Exchanges each entry, from the last to the second, with one drawn from those up to it. Returns the generator
    /// after that.
    pub fn shuffle<T>(mut self, entries: &mut [T]) -> Generator {
        for place in (2..=entries.len()).rev() {
            entries.swap(place - 1, self.take(place) - 1);
        }
        self
    }
}

/// The circle of a test load, and the generator of its next group.
struct Load {
    places: Vec<u16>,
    generator: Generator,
}

impl Load {
    /// Returns the load of n bins with this seed, before its first group.
    fn new(n: usize, seed: u32) -> Load {
        let mut places: Vec<u16> = (1..=n as u16).collect();
        let generator = Generator { state: seed }.shuffle(&mut places);
        Load { places, generator }
    }

    /// Draws the next group. Returns its bins, those up to the last place and those from the first place on.
    fn group(&mut self) -> [&[u16]; 2] {
        let n = self.places.len();
        let start = self.generator.take(n) - 1;
        let end = start + self.generator.take(n);
        [&self.places[start..end.min(n)], &self.places[..end.saturating_sub(n)]]
    }
}

/// Returns the first groups, so many, of the load of n bins with this seed, which is not 0: each the bins of its run
/// round the circle, from its start place on.
pub fn groups(n: usize, seed: u32, many: usize) -> Vec<Vec<u16>> {
    let mut load = Load::new(n, seed);
    (0..many).map(|_| load.group().concat()).collect()
}

/// Writes the ring file of the load of n bins with this seed and so many groups to the front of `bytes`, which has
/// 65,536 places; returns its length.
pub(crate) fn write_file(n: usize, seed: u32, groups: usize, bytes: &mut [u8]) -> usize {
    let head = write_names(n, bytes);
    let width = 2 * n;
    let length = head + groups * width;
    let mut load = Load::new(n, seed);
    for line in bytes[head..length].chunks_exact_mut(width) {
        write_values(load.group(), line);
    }
    length
}

/// Writes the names 1 to n and a line end to the front of `bytes`; returns how many bytes they are.
fn write_names(n: usize, bytes: &mut [u8]) -> usize {
    let mut out = Output { bytes, len: 0 };
    for bin in 1..=n {
        out.put_number(bin as u16);
        out.put(if bin < n { b" " } else { b"\n" });
    }
    out.len
}

/// Writes the values of a group and a line end over `line`, two bytes to a bin.
fn write_values(group: [&[u16]; 2], line: &mut [u8]) {
    line.chunks_exact_mut(2).for_each(|value| value.copy_from_slice(b"0 "));
    line[line.len() - 1] = b'\n';
    for &bin in group.into_iter().flatten() {
        line[2 * usize::from(bin) - 2] = b'1';
    }
}
