//! Joining a group: the nodes are labelled, the path of partial nodes is checked, and a new C-node takes its place.

use super::{slot, Item, Kind, Tree, ITEMS, NONE, ROOT, SLOTS};
use crate::marks::{self, Marks};

/// What of an item's leaves, on the side away from leaf 1, is in the group.
#[derive(Clone, Copy, PartialEq, Eq, PartialOrd, Ord)]
enum Sort {
    Empty,
    Partial,
    Full,
}

/// The sorts of all items for one group without leaf 1.
pub(super) struct Labels {
    sort: [Sort; ITEMS],
    /// How many children of each node are full.
    full: [u16; SLOTS],
    /// The partial children of each node, at most two.
    partial: [[Item; 2]; SLOTS],
}

impl Labels {
    pub(super) fn new() -> Labels {
        Labels { sort: [Sort::Empty; ITEMS], full: [0; SLOTS], partial: [[NONE; 2]; SLOTS] }
    }

    fn sort(&self, item: Item) -> Sort {
        self.sort[usize::from(item)]
    }

    pub(super) fn is_full(&self, item: Item) -> bool {
        self.sort(item) == Sort::Full
    }

    pub(super) fn full(&self, node: Item) -> u16 {
        self.full[slot(node)]
    }

    fn partial(&self, node: Item) -> [Item; 2] {
        self.partial[slot(node)]
    }

    /// Adds a partial child to its parent's; returns false if that is a third.
    fn add_partial(&mut self, parent: Item, child: Item) -> bool {
        let free = self.partial[slot(parent)].iter_mut().find(|entry| **entry == NONE);
        free.map(|entry| *entry = child).is_some()
    }
}

/// A list of nodes, each of which enters at most one time.
pub(super) struct Nodes {
    items: [Item; SLOTS],
    len: usize,
}

impl Nodes {
    pub(super) fn new() -> Nodes {
        Nodes { items: [NONE; SLOTS], len: 0 }
    }

    pub(super) fn push(&mut self, node: Item) {
        self.items[self.len] = node;
        self.len += 1;
    }

    pub(super) fn as_slice(&self) -> &[Item] {
        &self.items[..self.len]
    }

    /// Leaves the nodes that `keep` holds for.
    fn retain(&mut self, keep: impl Fn(Item) -> bool) {
        let mut kept = 0;
        for at in 0..self.len {
            self.items[kept] = self.items[at];
            kept += usize::from(keep(self.items[at]));
        }
        self.len = kept;
    }
}

/// Joining a group.
impl Tree {
    /// Restricts the tree to the orders in which the group is consecutive and returns true, or returns false and
    /// leaves the tree as it was if there are none. The group is a set of leaves of 1 to n.
    pub fn join(&mut self, group: &Marks) -> bool {
        let Some(group) = self.restricting(group) else { return true };
        let mut labels = Labels::new();
        let touched = self.label_group(&group, &mut labels);
        self.restrict(touched, &mut labels)
    }

    /// Does the same for the group of all leaves in these items. No item is in another, leaf 1 is in none, and some
    /// other leaf is in none either.
    pub(super) fn join_items(&mut self, items: impl Iterator<Item = Item>) -> bool {
        let mut labels = Labels::new();
        let touched = self.label_items(items, &mut labels);
        self.restrict(touched, &mut labels)
    }

    /// Restricts the tree to the group whose full items are labelled, given the nodes with a full child; returns
    /// false and leaves the tree as it was if the group is impossible.
    fn restrict(&mut self, touched: Nodes, labels: &mut Labels) -> bool {
        let apex = self.apex(touched, labels);
        if let Some(apex) = apex {
            self.update(labels, apex);
        }
        apex.is_some()
    }

    /// Returns whether the tree allows an order in which the group is consecutive.
    pub fn fits(&self, group: &Marks) -> bool {
        let Some(group) = self.restricting(group) else { return true };
        let mut labels = Labels::new();
        let touched = self.label_group(&group, &mut labels);
        self.apex(touched, &mut labels).is_some()
    }

    /// Returns the side of the group without leaf 1, none if it has less than two leaves or all but leaf 1.
    fn restricting(&self, group: &Marks) -> Option<Marks> {
        let side = if group[0] & 1 == 1 { marks::complement(self.n, group) } else { *group };
        let size = marks::size(&side);
        (size >= 2 && size + 2 <= self.n).then_some(side)
    }

    /// Labels the partial nodes, given those with a full child, and returns the lowest one above all leaves of the
    /// group, none if the group is impossible.
    fn apex(&self, touched: Nodes, labels: &mut Labels) -> Option<Item> {
        let mut apex = self.label_partial(touched, labels)?;
        while let (0, [child, NONE]) = (labels.full(apex), labels.partial(apex)) {
            apex = child;
        }
        let [left, right] = labels.partial(apex);
        let fits = self.apex_fits(labels, apex) && self.chain_fits(labels, left) && self.chain_fits(labels, right);
        fits.then_some(apex)
    }

    /// Labels the full items of a group, and returns the nodes with a full child.
    fn label_group(&self, group: &Marks, labels: &mut Labels) -> Nodes {
        let mut touched = Nodes::new();
        marks::each(group, |k| self.label_full(k as Item, labels, &mut touched));
        touched
    }

    /// Labels these items and those that they make full, and returns the nodes with a full child.
    pub(super) fn label_items(&self, items: impl Iterator<Item = Item>, labels: &mut Labels) -> Nodes {
        let mut touched = Nodes::new();
        items.for_each(|item| self.label_full(item, labels, &mut touched));
        touched
    }

    /// Labels a full item and the nodes above it that have no other children than full ones by now, and adds the
    /// nodes that have their first full child.
    fn label_full(&self, item: Item, labels: &mut Labels, touched: &mut Nodes) {
        let mut item = item;
        loop {
            labels.sort[usize::from(item)] = Sort::Full;
            item = self.parent(item);
            let full = &mut labels.full[slot(item)];
            *full += 1;
            if *full == 1 {
                touched.push(item);
            }
            if *full < self.degree(item) {
                break;
            }
        }
    }

    /// Labels the partial nodes, given those with a full child, and goes up from each in turn until a single one is left,
    /// which is above all others; returns it, none if a node has three partial children.
    fn label_partial(&self, mut touched: Nodes, labels: &mut Labels) -> Option<Item> {
        touched.retain(|node| !labels.is_full(node));
        let (mut at, mut top) = (0, NONE);
        while at < touched.len {
            let node = touched.items[at];
            at += 1;
            labels.sort[usize::from(node)] = Sort::Partial;
            if node == ROOT || top == NONE && at == touched.len {
                top = node;
                continue;
            }
            let parent = self.parent(node);
            if labels.full(parent) == 0 && labels.partial(parent)[0] == NONE {
                touched.push(parent);
            }
            if !labels.add_partial(parent, node) {
                return None;
            }
        }
        Some(top)
    }

    /// Returns whether a C-node's children at the apex are empty ones round one run of full ones, which a partial
    /// child may begin and another end. A P-node fits always.
    fn apex_fits(&self, labels: &Labels, apex: Item) -> bool {
        if self.kind(apex) == Kind::P {
            return true;
        }
        let mut children = self.children(apex).map(|item| labels.sort(item)).skip_while(|&sort| sort == Sort::Empty);
        children.next();
        match children.find(|&sort| sort != Sort::Full) {
            None => true,
            Some(_) => children.all(|sort| sort == Sort::Empty),
        }
    }

    /// Returns whether each node from `top` down the partial children has at most one partial child and, if it is a
    /// C-node, has the empty children before it and the full ones after it, or the reverse.
    fn chain_fits(&self, labels: &Labels, top: Item) -> bool {
        let mut node = top;
        while node != NONE {
            let [child, second] = labels.partial(node);
            let fits = match self.kind(node) {
                Kind::P => true,
                Kind::C => {
                    let sorts = || self.children(node).map(|item| labels.sort(item));
                    sorts().is_sorted() || sorts().is_sorted_by(|a, b| a >= b)
                }
            };
            if second != NONE || !fits {
                return false;
            }
            node = child;
        }
        true
    }
}

/// Updating the tree for a possible group.
impl Tree {
    /// Restricts the tree to a possible group with this apex.
    fn update(&mut self, labels: &Labels, apex: Item) {
        let [one, other] = labels.partial(apex);
        if one == NONE {
            return self.part(labels, apex);
        }
        let (centre, rising) = match self.kind(apex) {
            Kind::P => (self.centre(labels, apex), true),
            Kind::C => (apex, labels.sort(self.next(one)) != Sort::Empty),
        };
        self.dissolve(labels, one, rising);
        self.dissolve(labels, other, !rising);
        self.settle(centre);
    }

    /// Moves the full children, if two or more, of a P-node without partial ones to a new P-node under it.
    fn part(&mut self, labels: &Labels, apex: Item) {
        if self.kind(apex) == Kind::P && labels.full(apex) >= 2 {
            let full = self.take_full(labels, apex);
            self.insert(apex, NONE, full, self.head(apex));
            self.sift(full);
        }
    }

    /// Takes the full children out of a P-node; returns a P-node with them, the only one itself, or none.
    fn take_full(&mut self, labels: &Labels, node: Item) -> Item {
        let mut left = labels.full(node);
        let part = if left >= 2 { self.open(Kind::P) } else { NONE };
        let mut item = self.head(node);
        while left > 0 {
            let next = self.next(item);
            if labels.sort(item) == Sort::Full {
                self.unlink(item);
                left -= 1;
                if part == NONE {
                    return item;
                }
                self.append(part, item);
            }
            item = next;
        }
        if part != NONE {
            self.set_first(part);
        }
        part
    }

    /// Makes of a P-node at the apex a C-node with its partial and full children, under a P-node with the empty
    /// ones if there are any; returns the C-node.
    fn centre(&mut self, labels: &Labels, apex: Item) -> Item {
        let full = self.take_full(labels, apex);
        let [one, other] = labels.partial(apex);
        let parts = [one, full, other];
        for item in [one, other] {
            if item != NONE {
                self.unlink(item);
            }
        }
        let centre = if self.degree(apex) == 0 {
            self.inner[slot(apex)].kind = Kind::C;
            apex
        } else {
            let centre = self.open(Kind::C);
            self.append(apex, centre);
            centre
        };
        for item in parts {
            if item != NONE {
                self.append(centre, item);
            }
        }
        centre
    }

    /// Puts the parts of the nodes from `top` down the partial children in `top`'s place, empty parts on the left
    /// and full ones on the right if `rising`, else the reverse.
    fn dissolve(&mut self, labels: &Labels, top: Item, rising: bool) {
        let mut node = top;
        while node != NONE {
            let [child, _] = labels.partial(node);
            match self.kind(node) {
                Kind::P => self.split(labels, node, child, rising),
                Kind::C => {
                    if (labels.sort(self.head(node)) < labels.sort(self.tail(node))) != rising {
                        self.reverse(node);
                    }
                    self.replace_by_children(node);
                }
            }
            node = child;
        }
    }

    /// Puts a P-node's partial child and full part beside it and leaves its empty part in its place.
    fn split(&mut self, labels: &Labels, node: Item, child: Item, rising: bool) {
        let full = self.take_full(labels, node);
        if child != NONE {
            self.unlink(child);
        }
        for item in [full, child] {
            if rising {
                self.insert_after(node, item);
            } else {
                self.insert_before(node, item);
            }
        }
        if self.degree(node) < 2 {
            self.replace_by_children(node);
        } else {
            self.set_first(node);
        }
    }

    /// Brings `node`, whose children have changed, and the nodes above it into the sequence of the tree text.
    fn settle(&mut self, node: Item) {
        let mut node = node;
        loop {
            let (head, tail) = (self.head(node), self.tail(node));
            if self.kind(node) == Kind::C && self.first(tail) < self.first(head) {
                self.reverse(node);
            }
            let first = self.first(self.head(node));
            if first == self.first(node) {
                return;
            }
            self.first[usize::from(node)] = first;
            if node == ROOT {
                return;
            }
            if self.kind(self.parent(node)) == Kind::P {
                self.sift(node);
            }
            node = self.parent(node);
        }
    }

    /// Moves an item of a P-node to its place by the first leaf.
    fn sift(&mut self, item: Item) {
        let (node, key) = (self.parent(item), self.first(item));
        let (mut left, mut right) = (self.prev(item), self.next(item));
        self.unlink(item);
        while left != NONE && self.first(left) > key {
            right = left;
            left = self.prev(left);
        }
        while right != NONE && self.first(right) < key {
            left = right;
            right = self.next(right);
        }
        self.insert(node, left, item, right);
    }
}
