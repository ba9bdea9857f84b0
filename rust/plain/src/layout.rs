//! How bins hang: round a ring, or in a rack, which has two ends.

use crate::marks::{self, Marks};
use crate::tree::Tree;

/// A ring, or a rack. A rack is planned as a ring with one bin more, its last, the hidden end bin.
#[derive(Clone, Copy, PartialEq, Eq, Debug)]
pub enum Layout {
    Ring,
    Rack,
}

impl Layout {
    /// Returns how many leaves the tree of n bins has.
    pub(crate) fn leaves(self, n: usize) -> usize {
        match self {
            Layout::Ring => n,
            Layout::Rack => n + 1,
        }
    }

    /// Writes the standard order of the bins. `order` has a place for each.
    pub(crate) fn order(self, tree: &Tree, order: &mut [u16]) {
        match self {
            Layout::Ring => tree.frontier(order),
            Layout::Rack => tree.straight(order),
        }
    }

    /// Returns the bin at which a group has its aim in an order, none if it is empty or not consecutive.
    pub(crate) fn aim(self, order: &[u16], group: &Marks) -> Option<usize> {
        let n = order.len();
        let size = marks::size(group);
        let member = |place: usize| marks::has(group, usize::from(order[place % n]) - 1);
        let starts = |&place: &usize| match self {
            Layout::Ring if size < n => member(place) && !member(place + n - 1),
            _ => member(place),
        };
        let start = (0..n).find(starts)?;
        let run = (start..start + size).all(member);
        run.then(|| usize::from(order[middle(n, start, size)]))
    }
}

/// Returns the place, round n places, of the middle of a run: half way between two places it is the even one, and
/// place 0 between the last place and that, where a rack has no run.
fn middle(n: usize, start: usize, size: usize) -> usize {
    let halves = 2 * start + size - 1;
    let place = halves / 2 % n;
    let next = (place + 1) % n;
    let to_next = halves % 2 == 1 && (next == 0 || place % 2 == 1);
    if to_next {
        next
    } else {
        place
    }
}
