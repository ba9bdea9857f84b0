//! Ways to damage a node table of the crate's `planner`.
use crate::planner::Node;

/// What chooses among the ways.
pub trait Choose {
    /// A number below k.
    fn below(&mut self, k: usize) -> usize;

    /// One of these.
    fn pick<T: Copy>(&mut self, from: &[T]) -> T {
        from[self.below(from.len())]
    }
}

/// Damages a node table of 256 records or more. Now and then it stays as it was, or becomes another tree's.
pub fn damage_nodes(choose: &mut impl Choose, n: usize, nodes: &mut [Node]) {
    let nodes = &mut nodes[..256];
    let used = nodes.iter().take_while(|node| node.kind != 0).count();
    match choose.below(7) {
        0 => any_number(choose, nodes),
        1 => head(choose, used, nodes),
        2 => item(choose, n, used, nodes),
        3 => moved(choose, used, nodes),
        4 if used > 0 => shape(choose, used, nodes),
        5 if used > 0 => {
            shape(choose, used, nodes);
            in_sequence(nodes);
        }
        6 if used > 0 => three_neighbours(choose, used, nodes),
        _ => {}
    }
}

/// A used record, or the first that is not.
fn record(choose: &mut impl Choose, used: usize) -> usize {
    choose.below(used + 1).min(255)
}

/// Another number anywhere in the table: one bit of it is turned.
fn any_number(choose: &mut impl Choose, nodes: &mut [Node]) {
    let node = &mut nodes[choose.below(256)];
    let (number, bits) = (choose.below(257), choose.pick(&[1u16, 256, 32_768]));
    match number {
        0 => node.kind = (node.kind as u16 ^ bits.min(128)) as _,
        1 => node.count ^= bits,
        _ => node.items[number - 2] ^= bits,
    }
}

/// Another kind, its low byte where it has no more, or another count.
fn head(choose: &mut impl Choose, used: usize, nodes: &mut [Node]) {
    let node = &mut nodes[record(choose, used)];
    let count = node.count;
    match choose.below(2) {
        0 => node.kind = choose.pick(&[0u16, 1, 2, 3, 255, 256, 257, 258, 512, 65_281, 65_535]) as _,
        _ => node.count = choose.pick(&[0, 1, 2, 3, 254, 255, 256, 65_535, count.wrapping_add(1), count.wrapping_sub(1)]),
    }
}

/// Another number in an item's place, in the place after the items, or in the record's last: a leaf or close to one, the second record, the record
/// itself, one before it, after it or not used, or none of these. No item can name the first record.
fn item(choose: &mut impl Choose, n: usize, used: usize, nodes: &mut [Node]) {
    let at = record(choose, used);
    let count = (nodes[at].count as usize).min(253);
    let place = choose.below(count + 2);
    let place = if place > count { 254 } else { place };
    let names = [0, 1, 2, 3, n, n + 1, 255, 256, 257, 255 + at, 256 + at, 257 + at, 255 + used, 256 + used, 511, 512, 65_535];
    nodes[at].items[place] = choose.pick(&names) as u16;
}

/// Two records exchanged, one copied over another, an unused one put before one, or one moved to the table's end; their names with them or not.
fn moved(choose: &mut impl Choose, used: usize, nodes: &mut [Node]) {
    let (at, old) = (record(choose, used), nodes.to_vec());
    let mut from: Vec<usize> = (0..256).collect();
    match choose.below(4) {
        0 => from.swap(at, record(choose, used)),
        1 => from[at] = record(choose, used),
        2 => from[at..].rotate_right(1),
        _ => from[at..].rotate_left(1),
    }
    nodes.iter_mut().zip(&from).for_each(|(node, &at)| *node = old[at]);
    if choose.below(2) == 0 {
        return;
    }
    for item in nodes.iter_mut().flat_map(|node| &mut node.items).filter(|item| **item > 256) {
        if let Some(at) = from.iter().position(|at| 256 + at == *item as usize) {
            *item = 256 + at as u16;
        }
    }
}

/// Two items of a node exchanged, all of them reversed, one left out, one put twice, or one put in a node of its own or exchanged for an empty node.
/// The records stay where they are.
fn shape(choose: &mut impl Choose, used: usize, nodes: &mut [Node]) {
    let (at, new) = (choose.below(used), used.min(255));
    let node = &mut nodes[at];
    let count = (node.count as usize).clamp(1, 254);
    let place = choose.below(count);
    match choose.below(5) {
        0 => node.items.swap(place, choose.below(count)),
        1 => node.items[..count].reverse(),
        2 => {
            node.items.copy_within(place + 1.., place);
            node.count = node.count.wrapping_sub(1);
        }
        3 => {
            node.items.copy_within(place..254, place + 1);
            node.count = node.count.wrapping_add(1);
        }
        _ => {
            let item = std::mem::replace(&mut node.items[place], 256 + new as u16);
            let count = choose.below(2) as u16;
            nodes[new] = Node { kind: choose.pick(&[1, 2]), count, ..Node::UNUSED };
            nodes[new].items[0] = count * item;
        }
    }
}

/// A node with two items, the first from a record on, is a C-node: nothing else is wrong then.
fn three_neighbours(choose: &mut impl Choose, used: usize, nodes: &mut [Node]) {
    let from = choose.below(used);
    if let Some(node) = nodes[from..].iter_mut().find(|node| node.count == 2) {
        node.kind = 2;
    }
}

/// Puts the records that the root leads to in the sequence of a tree text, and no other records behind them.
fn in_sequence(nodes: &mut [Node]) {
    let mut laid = Vec::new();
    lay(nodes, 0, &mut laid);
    laid.resize(256, Node::UNUSED);
    nodes.copy_from_slice(&laid);
}

/// Lays a record, and those below it, behind the others while there is room. Returns its name.
fn lay(nodes: &[Node], record: usize, laid: &mut Vec<Node>) -> u16 {
    let at = laid.len();
    if at < 256 {
        laid.push(nodes[record]);
        for place in 0..(nodes[record].count as usize).min(255) {
            let item = nodes[record].items[place];
            if (257..512).contains(&item) {
                laid[at].items[place] = lay(nodes, item as usize - 256, laid);
            }
        }
    }
    256 + at as u16
}
