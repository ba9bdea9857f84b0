//! A ring file that is accepted.
use crate::{group_of, name_of, scan, File, Refusal, Ring};

/// A ring file's bytes, read through and accepted.
#[derive(Clone, Copy, PartialEq, Eq, Debug)]
pub struct RingFile<'a> {
    bytes: &'a [u8],
    shape: File,
}

impl<'a> RingFile<'a> {
    /// Reads the bytes through. A malformed file is refused with the byte, from 0.
    pub fn read(bytes: &'a [u8]) -> Result<RingFile<'a>, Refusal> {
        Ok(RingFile { bytes, shape: scan(bytes)? })
    }

    /// How many names: the ring's number of leaves.
    pub fn names(&self) -> usize {
        self.shape.names
    }

    /// How many lines of values, a group each.
    pub fn lines(&self) -> usize {
        self.shape.lines
    }

    /// The name of leaf k + 1, the part of the names line that it fills.
    pub fn name(&self, k: usize) -> Option<&'a [u8]> {
        (k < self.names()).then(|| name_of(self.bytes, k))
    }

    /// The leaves, rising, of value line `line`, from 0.
    pub fn group(&self, line: usize) -> Option<Vec<u16>> {
        let mut list = vec![0; self.names()];
        let many = group_of(self.bytes, self.shape, line, &mut list);
        list.truncate(many);
        (line < self.lines()).then_some(list)
    }

    /// The fresh ring of the file's leaves.
    pub fn ring(&self) -> Ring {
        Ring::new(self.names()).expect("an accepted file has 1 to 256 names")
    }
}
