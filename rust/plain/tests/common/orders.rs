//! All orders of some bins, those that a tree allows, and what hangs together in one.

use super::shapes::sequences;
use super::Bins;
use plain::Layout::{self, Rack, Ring};
use plain::Node;

/// Returns all orders of n bins, a ring's read from bin 1, in dictionary order.
pub fn orders(layout: Layout, n: usize) -> Vec<Vec<u16>> {
    let bins: Vec<u16> = (1..=n as u16).collect();
    let mut all = sequences(&bins);
    all.retain(|order| layout == Rack || order[0] == 1);
    all
}

/// Returns whether the bins of a list are neighbours without a gap, in a ring round the circle.
pub fn hangs_together(layout: Layout, order: &[u16], list: &[u16]) -> bool {
    let next = |place: usize| match layout {
        Ring => order.get((place + 1) % order.len()),
        Rack => order.get(place + 1),
    };
    let member = |bin: &u16| list.contains(bin);
    (0..order.len()).filter(|&place| member(&order[place]) && !next(place).is_some_and(member)).count() <= 1
}

/// Returns the sequences of leaves that an item of a node table allows; 256 is its record 0.
fn frontiers(nodes: &[Node], item: u16) -> Vec<Vec<u16>> {
    if item < 256 {
        return vec![vec![item]];
    }
    let node = &nodes[usize::from(item) - 256];
    let items = node.items[..usize::from(node.count)].to_vec();
    let reversed = items.iter().rev().copied().collect();
    let arranged = if node.kind == 1 { sequences(&items) } else { vec![items, reversed] };
    let mut all = Vec::new();
    for items in arranged {
        let mut begun = vec![Vec::new()];
        for item in items {
            let ends = frontiers(nodes, item);
            let longer = |begin: &Vec<u16>| ends.iter().map(|end| [&begin[..], end].concat()).collect::<Vec<_>>();
            begun = begun.iter().flat_map(longer).collect();
        }
        all.extend(begun);
    }
    all
}

/// Returns the circular orders of so many leaves, read from leaf 1, that a node table allows.
fn circles(nodes: &[Node], leaves: usize) -> Vec<Vec<u16>> {
    let rest = match leaves {
        1 => vec![vec![]],
        2 => vec![vec![2]],
        _ => frontiers(nodes, 256),
    };
    rest.into_iter().map(|rest| [&[1], &rest[..]].concat()).collect()
}

/// Returns the orders that the tree allows, in dictionary order: a rack's are read from its hidden end bin on.
pub fn allowed(bins: &Bins) -> Vec<Vec<u16>> {
    let hidden = bins.n as u16 + 1;
    let straight = |circle: Vec<u16>| {
        let end = circle.iter().position(|&leaf| leaf == hidden).expect("each leaf is there");
        [&circle[end + 1..], &circle[..end]].concat()
    };
    let mut orders: Vec<Vec<u16>> = match bins.layout {
        Ring => circles(&bins.nodes, bins.n),
        Rack => circles(&bins.nodes, bins.n + 1).into_iter().map(straight).collect(),
    };
    orders.sort();
    orders.dedup();
    orders
}
