//! The straight orders that a tree allows: the lists of leaves read from its last leaf on, which is the hidden end bin.

use super::{is_node, leaf, number, Item, Kind, Tree};

impl Tree {
    /// Writes the first straight order, in dictionary order, that the tree allows. `order` has n - 1 places.
    pub fn straight(&self, order: &mut [u16]) {
        let end = leaf(self.n);
        order.copy_from_slice(&self.first_list(self.parent(end), end));
    }

    /// Returns the first list, in dictionary order, of an item's leaves and of all beyond it, seen from its neighbour
    /// `from`.
    fn first_list(&self, item: Item, from: Item) -> Vec<u16> {
        if !is_node(item) {
            return vec![number(item)];
        }
        let others = self.other_neighbours(item, from);
        let mut lists: Vec<Vec<u16>> = others.iter().map(|&other| self.first_list(other, item)).collect();
        match self.kind(item) {
            Kind::P => lists.sort(),
            Kind::C if lists.last() < lists.first() => lists.reverse(),
            Kind::C => (),
        }
        lists.concat()
    }

    /// Returns the neighbours of a node but one, in the sequence in which they stand round it after that one.
    fn other_neighbours(&self, node: Item, one: Item) -> Vec<Item> {
        let round: Vec<Item> = [self.parent(node)].into_iter().chain(self.children(node)).collect();
        let (before, after) = round.split_at(round.iter().position(|&item| item == one).expect("a neighbour"));
        [&after[1..], before].concat()
    }
}
