//! A PC-tree over the leaves 1 to n, rooted at leaf 1, with its children always in the sequence of the tree text.

mod intersect;
mod join;
mod straight;

use crate::marks::{self, Marks};

/// An item of the tree: leaf `k` is `k - 1`, the node in slot `s` is `256 + s`. Leaf 1 is the root and no one's
/// child, so 0 also stands for "none".
pub(crate) type Item = u16;

/// The item that stands for none, and for leaf 1.
pub(crate) const NONE: Item = 0;
/// The node next to leaf 1, from n = 3 on.
pub(crate) const ROOT: Item = 256;
const SLOTS: usize = 256;
const ITEMS: usize = 512;

#[derive(Clone, Copy, PartialEq, Eq, Debug)]
pub(crate) enum Kind {
    P,
    C,
}

/// An inner node: its children are a doubly linked list from `head` to `tail`.
#[derive(Clone, Copy)]
struct Inner {
    kind: Kind,
    degree: u16,
    head: Item,
    tail: Item,
}

const BARE: Inner = Inner { kind: Kind::P, degree: 0, head: NONE, tail: NONE };

/// A PC-tree. Every node's children stand in the sequence of the tree text, and a C-node has at least three.
#[derive(Clone)]
pub struct Tree {
    n: usize,
    inner: [Inner; SLOTS],
    used: Marks,
    parent: [Item; ITEMS],
    next: [Item; ITEMS],
    prev: [Item; ITEMS],
    /// The first leaf printed of each item, 0 for a new node.
    first: [Item; ITEMS],
}

/// Returns the slot of a node.
fn slot(node: Item) -> usize {
    usize::from(node & 255)
}

/// Returns the item of leaf `k`, 1 to 256.
pub(crate) fn leaf(k: usize) -> Item {
    (k - 1) as Item
}

/// Returns the number of a leaf.
pub(crate) fn number(leaf: Item) -> u16 {
    leaf + 1
}

/// Returns whether an item is a node.
pub(crate) fn is_node(item: Item) -> bool {
    item >= ROOT
}

impl Tree {
    /// Returns the tree without any node, for n from 1 to 256.
    pub(crate) fn bare(n: usize) -> Tree {
        let mut first = [NONE; ITEMS];
        for (k, entry) in first.iter_mut().take(SLOTS).enumerate() {
            *entry = k as Item;
        }
        let none = [NONE; ITEMS];
        Tree { n, inner: [BARE; SLOTS], used: [0; 4], parent: none, next: none, prev: none, first }
    }

    /// Returns the tree that allows every order of n leaves, n from 1 to 256.
    pub fn fresh(n: usize) -> Tree {
        let mut tree = Tree::bare(n);
        if n >= 3 {
            let root = tree.open(Kind::P);
            for k in 2..=n {
                tree.append(root, leaf(k));
            }
            tree.set_first(root);
        }
        tree
    }

    /// Returns how many leaves the tree has.
    pub fn leaves(&self) -> usize {
        self.n
    }

    /// Returns how many nodes the tree has.
    pub(crate) fn nodes(&self) -> usize {
        marks::size(&self.used)
    }

    pub(crate) fn kind(&self, node: Item) -> Kind {
        self.inner[slot(node)].kind
    }

    pub(crate) fn degree(&self, node: Item) -> u16 {
        self.inner[slot(node)].degree
    }

    pub(crate) fn parent(&self, item: Item) -> Item {
        self.parent[usize::from(item)]
    }

    /// Returns the sibling after an item, or none.
    pub(crate) fn next(&self, item: Item) -> Item {
        self.next[usize::from(item)]
    }

    fn prev(&self, item: Item) -> Item {
        self.prev[usize::from(item)]
    }

    fn first(&self, item: Item) -> Item {
        self.first[usize::from(item)]
    }

    pub(crate) fn head(&self, node: Item) -> Item {
        self.inner[slot(node)].head
    }

    fn tail(&self, node: Item) -> Item {
        self.inner[slot(node)].tail
    }

    /// Returns the children of a node in sequence.
    pub(crate) fn children(&self, node: Item) -> impl Iterator<Item = Item> + '_ {
        let mut item = self.head(node);
        std::iter::from_fn(move || {
            let now = item;
            item = self.next(now);
            (now != NONE).then_some(now)
        })
    }

    /// Returns the item next to leaf 1; none for n = 1.
    pub(crate) fn top(&self) -> Item {
        match self.n {
            1 => NONE,
            2 => leaf(2),
            _ => ROOT,
        }
    }

    /// Writes the leaves into `order` in the sequence in which the tree text prints them, the standard order.
    /// `order` has n places.
    pub fn frontier(&self, order: &mut [u16]) {
        order[0] = 1;
        let mut item = self.top();
        let mut place = 1;
        while item != NONE {
            if !is_node(item) {
                order[place] = number(item);
                place += 1;
            }
            item = self.after(item);
        }
    }

    /// Sets the first leaf of a node from its children.
    pub(crate) fn set_first(&mut self, node: Item) {
        self.first[usize::from(node)] = self.first(self.head(node));
    }

    /// Returns the least `start` of the items that break the sequence of the tree text: a P-node's child with a
    /// smaller first leaf than the one before it, or the head of a C-node in the wrong direction.
    pub(crate) fn least_fault(&self, start: impl Fn(Item) -> usize) -> Option<usize> {
        let mut least: Option<usize> = None;
        let mut note = |item: Item, broken: bool| {
            if broken {
                least = Some(least.map_or(start(item), |least| least.min(start(item))));
            }
        };
        marks::each(&self.used, |s| {
            let parent = ROOT + s as Item;
            match self.kind(parent) {
                Kind::C => note(self.head(parent), self.first(self.tail(parent)) < self.first(self.head(parent))),
                Kind::P => {
                    for item in self.children(parent).skip(1) {
                        note(item, self.first(item) < self.first(self.prev(item)));
                    }
                }
            }
        });
        least
    }

    /// Makes every node with three neighbours a P-node.
    pub(crate) fn name_threes(&mut self) {
        let inner = &mut self.inner;
        marks::each(&self.used, |s| {
            if inner[s].degree == 2 {
                inner[s].kind = Kind::P;
            }
        });
    }

    /// Returns the item that the tree text prints, or opens, after this one; none after the last.
    pub(crate) fn after(&self, item: Item) -> Item {
        if is_node(item) {
            return self.head(item);
        }
        let mut at = item;
        while at != NONE && self.next(at) == NONE {
            at = self.parent(at);
        }
        self.next(at)
    }
}

/// Lists of children.
impl Tree {
    /// Returns a new node without children.
    pub(crate) fn open(&mut self, kind: Kind) -> Item {
        let word = self.used.iter().position(|&word| word != u64::MAX);
        let word = word.expect("256 leaves need at most 254 nodes");
        let free = 64 * word + self.used[word].trailing_ones() as usize;
        marks::set(&mut self.used, free);
        self.inner[free] = Inner { kind, ..BARE };
        let node = ROOT + free as Item;
        self.first[usize::from(node)] = NONE;
        node
    }

    fn release(&mut self, node: Item) {
        marks::clear(&mut self.used, slot(node));
    }

    /// Links `left` and `right` as siblings in `node`'s list; none on either side is the list's end.
    fn link(&mut self, node: Item, left: Item, right: Item) {
        match left {
            NONE => self.inner[slot(node)].head = right,
            _ => self.next[usize::from(left)] = right,
        }
        match right {
            NONE => self.inner[slot(node)].tail = left,
            _ => self.prev[usize::from(right)] = left,
        }
    }

    /// Puts `item` into `node`'s list between the siblings `left` and `right`.
    fn insert(&mut self, node: Item, left: Item, item: Item, right: Item) {
        self.parent[usize::from(item)] = node;
        self.link(node, left, item);
        self.link(node, item, right);
        self.inner[slot(node)].degree += 1;
    }

    /// Puts `item` last in `node`'s list.
    pub(crate) fn append(&mut self, node: Item, item: Item) {
        self.insert(node, self.tail(node), item, NONE);
    }

    /// Puts `item`, if any, after its new sibling `place`.
    fn insert_after(&mut self, place: Item, item: Item) {
        if item != NONE {
            self.insert(self.parent(place), place, item, self.next(place));
        }
    }

    /// Puts `item`, if any, before its new sibling `place`.
    fn insert_before(&mut self, place: Item, item: Item) {
        if item != NONE {
            self.insert(self.parent(place), self.prev(place), item, place);
        }
    }

    /// Takes `item` out of its list.
    fn unlink(&mut self, item: Item) {
        let node = self.parent(item);
        self.link(node, self.prev(item), self.next(item));
        self.inner[slot(node)].degree -= 1;
    }

    /// Reverses `node`'s list.
    fn reverse(&mut self, node: Item) {
        let mut item = self.head(node);
        while item != NONE {
            let next = self.next(item);
            self.next[usize::from(item)] = self.prev(item);
            self.prev[usize::from(item)] = next;
            item = next;
        }
        let inner = &mut self.inner[slot(node)];
        std::mem::swap(&mut inner.head, &mut inner.tail);
    }

    /// Puts the children of `node` in its own place, in their sequence, and drops `node`.
    fn replace_by_children(&mut self, node: Item) {
        let up = self.parent(node);
        let mut item = self.head(node);
        while item != NONE {
            self.parent[usize::from(item)] = up;
            item = self.next(item);
        }
        let (left, right) = (self.prev(node), self.next(node));
        let Inner { head, tail, degree, .. } = self.inner[slot(node)];
        if head == NONE {
            self.link(up, left, right);
        } else {
            self.link(up, left, head);
            self.link(up, tail, right);
        }
        self.inner[slot(up)].degree += degree;
        self.inner[slot(up)].degree -= 1;
        self.release(node);
    }
}
