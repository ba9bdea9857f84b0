//! The book of accepted groups: 96 groups of four mark words.

use crate::marks::{self, Marks};
use crate::tree::Tree;

/// How many groups a book has room for.
pub const GROUPS: usize = 96;
/// How many mark words a book has.
pub const WORDS: usize = 4 * GROUPS;

/// A book in form: the groups up to its count.
pub struct Book<'a> {
    words: &'a [u64],
}

impl<'a> Book<'a> {
    /// Returns the book if it is in form for n: at most 96 groups with marks of 1 to n only, and zeros after them.
    /// `book` has 384 words.
    pub fn checked(n: usize, book: &'a [u64], count: usize) -> Option<Book<'a>> {
        if count > GROUPS {
            return None;
        }
        let (words, rest) = book.split_at(4 * count);
        let others = marks::complement(256, &marks::all(n));
        let fits = |group: &[u64]| group.iter().zip(&others).all(|(word, other)| word & other == 0);
        (words.chunks_exact(4).all(fits) && rest.iter().all(|&word| word == 0)).then(|| Book::of(words))
    }

    /// Returns the book of these groups, four words each, which are in form.
    pub fn of(words: &'a [u64]) -> Book<'a> {
        Book { words }
    }

    /// Returns group `k` from 0.
    pub fn group(&self, k: usize) -> Marks {
        std::array::from_fn(|w| self.words[4 * k + w])
    }

    /// Returns the groups that the leaving-out rule keeps for `group`, none if the book and `group` can hang together
    /// in an order of so many leaves.
    pub fn conflict(&self, leaves: usize, group: &Marks) -> Kept {
        let mut kept = Kept { numbers: [0; GROUPS], size: 0 };
        let count = self.words.len() / 4;
        let mut tree = Tree::fresh(leaves);
        tree.join(group);
        if !self.join_all(&mut tree.clone(), 0..count) {
            self.keep(&tree, 0, count, &mut kept);
        }
        kept
    }

    /// Joins the groups to the tree until one is impossible; returns whether none is.
    fn join_all(&self, tree: &mut Tree, mut groups: impl Iterator<Item = usize>) -> bool {
        groups.all(|k| tree.join(&self.group(k)))
    }

    /// Adds those of the groups `from` to `to` that the leaving-out rule keeps. `tree` is the tree of the new group,
    /// of those kept before `from` and of all from `to` on; it cannot take all of the groups between.
    ///
    /// The rule goes through the first half with the second one whole, then through the second with what is kept of
    /// the first; with an impossible rest it keeps nothing.
    fn keep(&self, tree: &Tree, from: usize, to: usize, kept: &mut Kept) {
        if to - from == 1 {
            kept.numbers[kept.size] = to as u16;
            kept.size += 1;
            return;
        }
        let middle = from.midpoint(to);
        let before = kept.size;
        let mut rest = tree.clone();
        if self.join_all(&mut rest, middle..to) {
            self.keep(&rest, from, middle, kept);
        }
        rest.clone_from(tree);
        if self.join_all(&mut rest, kept.numbers()[before..].iter().map(|&number| usize::from(number) - 1)) {
            self.keep(&rest, middle, to, kept);
        }
    }
}

/// The numbers, from 1 and rising, of the groups in conflict.
pub struct Kept {
    pub numbers: [u16; GROUPS],
    pub size: usize,
}

impl Kept {
    /// Returns the numbers without the zeros after them.
    pub fn numbers(&self) -> &[u16] {
        &self.numbers[..self.size]
    }
}

/// Writes a group at place `k` from 0 of a book.
pub fn put(book: &mut [u64], k: usize, group: &Marks) {
    book[4 * k..4 * k + 4].copy_from_slice(group);
}
