//! The intersection of two trees: the nodes of the second are joined to the first from below, and the leaves of a node
//! are then merged, so that the nodes above name them by one item or two.

use super::join::{Labels, Nodes};
use super::{is_node, slot, Item, Kind, Tree, ITEMS, NONE, ROOT};

/// A run of siblings by its two ends, which may be one item.
#[derive(Clone, Copy)]
struct Run {
    left: Item,
    right: Item,
}

impl Run {
    /// Returns the ends, one time where they are the same.
    fn ends(self) -> impl Iterator<Item = Item> {
        [self.left, self.right].into_iter().take(1 + usize::from(self.left != self.right))
    }
}

/// What was cut out between the ends of a run: so many items, from `head` on, each of which keeps its next one.
struct Cut {
    run: Run,
    head: Item,
    size: u16,
}

impl Tree {
    /// Restricts the tree to the orders that `other`, of as many leaves, allows too and returns true, or returns false
    /// if there are none, and the tree is of no use then.
    pub fn intersect(&mut self, other: &Tree) -> bool {
        // The run of each item of `other`, once its leaves are merged.
        let mut runs: [Run; ITEMS] = std::array::from_fn(|k| Run { left: k as Item, right: k as Item });
        let mut cuts = Vec::new();
        for &node in other.inner_nodes().as_slice().iter().rev() {
            let children = || other.children(node).map(|child| runs[usize::from(child)]);
            // The children of the root are all leaves but leaf 1, so only their sequence may be fixed.
            let possible = match other.kind(node) {
                Kind::C => children().zip(children().skip(1)).all(|(a, b)| self.join_items(a.ends().chain(b.ends()))),
                Kind::P => node == ROOT || self.join_items(children().flat_map(Run::ends)),
            };
            if !possible {
                return false;
            }
            if node != ROOT {
                let (run, inside) = self.run_of(children().flat_map(Run::ends));
                cuts.extend((inside > 0).then(|| self.cut(run, inside)));
                runs[usize::from(node)] = run;
            }
        }
        cuts.iter().rev().for_each(|cut| self.restore(cut));
        true
    }

    /// Returns the nodes, each before those below it.
    fn inner_nodes(&self) -> Nodes {
        let mut nodes = Nodes::new();
        let mut item = self.top();
        while item != NONE {
            if is_node(item) {
                nodes.push(item);
            }
            item = self.after(item);
        }
        nodes
    }

    /// Returns the run of siblings that has the leaves of these items, which were joined, and how many siblings are
    /// between its ends.
    fn run_of(&self, items: impl Iterator<Item = Item>) -> (Run, u16) {
        let mut labels = Labels::new();
        let mut items = items.peekable();
        let mut left = *items.peek().expect("a node has children");
        self.label_items(items, &mut labels);
        while labels.is_full(self.parent(left)) {
            left = self.parent(left);
        }
        let mut right = left;
        while labels.is_full(self.prev(left)) {
            left = self.prev(left);
        }
        while labels.is_full(self.next(right)) {
            right = self.next(right);
        }
        (Run { left, right }, labels.full(self.parent(left)).saturating_sub(2))
    }

    /// Cuts out what is between the ends of a run, so many items.
    fn cut(&mut self, run: Run, size: u16) -> Cut {
        let (node, head) = (self.parent(run.left), self.next(run.left));
        self.link(node, run.left, run.right);
        self.inner[slot(node)].degree -= size;
        Cut { run, head, size }
    }

    /// Puts back what was cut out, in the direction that the run has by now.
    fn restore(&mut self, cut: &Cut) {
        let rising = self.next(cut.run.left) == cut.run.right;
        let (mut place, mut item) = (cut.run.left, cut.head);
        for _ in 0..cut.size {
            let next = self.next(item);
            if rising {
                self.insert_after(place, item);
            } else {
                self.insert_before(place, item);
            }
            (place, item) = (item, next);
        }
    }
}
