//! Small rings against all circular orders, and small racks against all straight ones: what can join, which orders are left, which groups are in
//! conflict, where a group is aimed, and what two trees both allow.
use crate::draw::Draw;
use crate::tables::Size;
use crate::texts::shaped;
use tokuwhape::Layout::{self, Rack, Ring};
use tokuwhape::{Node, Refusal};

/// A group as a set of leaves: leaf b is bit b.
type Set = u32;

/// Every order of n leaves, a ring's read from leaf 1, in dictionary order.
fn orders(Size { layout, n }: Size) -> Vec<Vec<u16>> {
    let leaves: Vec<u16> = (1..=n as u16).collect();
    let mut found = sequences(&leaves);
    found.retain(|order| layout == Rack || order[0] == 1);
    found
}

fn set(group: &[u16]) -> Set {
    group.iter().map(|leaf| 1 << leaf).sum()
}

fn has(group: Set, leaf: u16) -> bool {
    group >> leaf & 1 == 1
}

/// Where a run of the group starts in the order: the places of the group that follow a place outside it, or a rack's end.
fn starts(layout: Layout, group: Set, order: &[u16]) -> Vec<usize> {
    let n = order.len();
    let follows = |i: usize| (layout == Rack && i == 0) || !has(group, order[(i + n - 1) % n]);
    (0..n).filter(|&i| has(group, order[i]) && follows(i)).collect()
}

fn consecutive(layout: Layout, group: Set, order: &[u16]) -> bool {
    starts(layout, group, order).len() <= 1
}

/// Whether some order has each of these groups consecutive.
fn possible(layout: Layout, orders: &[Vec<u16>], groups: &[Set]) -> bool {
    orders.iter().any(|order| groups.iter().all(|&group| consecutive(layout, group, order)))
}

/// The numbers of the groups that the leaving-out rule keeps.
fn conflict(layout: Layout, orders: &[Vec<u16>], book: &[Set], new: Set) -> Vec<u16> {
    let mut kept: Vec<u16> = (1..=book.len() as u16).collect();
    let with = |numbers: &[u16]| -> Vec<Set> { numbers.iter().map(|&number| book[number as usize - 1]).chain([new]).collect() };
    if possible(layout, orders, &with(&kept)) {
        return Vec::new();
    }
    for number in 1..=book.len() as u16 {
        let rest: Vec<u16> = kept.iter().copied().filter(|&other| other != number).collect();
        if !possible(layout, orders, &with(&rest)) {
            kept = rest;
        }
    }
    kept
}

/// The leaf at which the group is aimed in this order; an empty group has no aim.
fn aim(layout: Layout, group: Set, order: &[u16]) -> Result<usize, Refusal> {
    if group == 0 {
        return Err(Refusal::NoAim);
    }
    let start = starts(layout, group, order).first().copied().unwrap_or(0);
    let size = group.count_ones() as usize;
    let run: Vec<usize> = (start..start + size).map(|place| place % order.len()).collect();
    let place = match run[(size - 1) / 2..=size / 2] {
        [middle] => middle,
        [_, 0] => 0,
        [lower, _] if lower % 2 == 0 => lower,
        [_, upper] => upper,
        _ => unreachable!("one middle or two"),
    };
    Ok(order[place] as usize)
}

/// Every sequence of these entries.
fn sequences(entries: &[u16]) -> Vec<Vec<u16>> {
    if entries.is_empty() {
        return vec![Vec::new()];
    }
    let mut found = Vec::new();
    for (i, &first) in entries.iter().enumerate() {
        let rest = [&entries[..i], &entries[i + 1..]].concat();
        found.extend(sequences(&rest).into_iter().map(|tail| [&[first], &tail[..]].concat()));
    }
    found
}

/// The sequences of leaves that an item of a small node table allows; 256 is its record 0.
fn frontiers(nodes: &[Node], item: u16) -> Vec<Vec<u16>> {
    if item < 256 {
        return vec![vec![item]];
    }
    let node = &nodes[item as usize - 256];
    let items = &node.items[..node.count as usize];
    let reversed: Vec<u16> = items.iter().rev().copied().collect();
    let arranged = if node.kind == 1 { sequences(items) } else { vec![items.to_vec(), reversed] };
    let mut found = Vec::new();
    for sequence in arranged {
        let mut begun = vec![Vec::new()];
        for item in sequence {
            let ends = frontiers(nodes, item);
            begun = begun.iter().flat_map(|first: &Vec<u16>| ends.iter().map(move |end| [&first[..], &end[..]].concat())).collect();
        }
        found.extend(begun);
    }
    found
}

/// The orders that the node table's tree allows, in dictionary order: a rack's are read from its hidden end on.
fn allowed(nodes: &[Node], size: Size) -> Vec<Vec<u16>> {
    let rest = match size.leaves() {
        1 => vec![vec![]],
        2 => vec![vec![2]],
        _ => frontiers(nodes, 256),
    };
    let mut found: Vec<Vec<u16>> = rest.into_iter().map(|rest| [&[1], &rest[..]].concat()).collect();
    if size.layout == Rack {
        for circle in &mut found {
            let end = circle.iter().position(|&leaf| leaf as usize > size.n).expect("each leaf is there");
            circle.rotate_left(end);
            circle.remove(0);
        }
    }
    found.sort();
    found.dedup();
    found
}

/// Whether a node of the table has three neighbours and is a C-node.
fn has_three(nodes: &[Node]) -> bool {
    nodes.iter().any(|node| (node.kind, node.count) == (2, 2))
}

/// A ring or a rack, and what it should be: its groups, and the orders that have each of them consecutive.
struct Watched {
    size: Size,
    nodes: Vec<Node>,
    book: Vec<u64>,
    groups: Vec<Set>,
    left: Vec<Vec<u16>>,
}

impl Watched {
    fn fresh(size: Size) -> Watched {
        let mut fresh = Watched { size, nodes: vec![Node::UNUSED; 256], book: vec![0; 384], groups: Vec::new(), left: orders(size) };
        assert_eq!(tokuwhape::open(size.layout, size.n, &mut fresh.nodes, &mut fresh.book), Ok(0));
        fresh
    }

    /// The ring or rack with the tree of this text; none where it is refused.
    fn of_text(size: Size, text: &[u8]) -> Option<Watched> {
        let mut read = Watched::fresh(size);
        tokuwhape::read(size.layout, size.n, &mut read.nodes, &mut read.book, text).ok()?;
        read.left = allowed(&read.nodes, size);
        assert!(!has_three(&read.nodes), "{}", String::from_utf8_lossy(text));
        Some(read)
    }

    /// Joins the group, and checks its answer and the orders left.
    fn join(&mut self, list: &[u16]) {
        let Size { layout, n } = self.size;
        let after: Vec<Vec<u16>> = self.left.iter().filter(|order| consecutive(layout, set(list), order)).cloned().collect();
        let answer = tokuwhape::join(layout, n, &mut self.nodes, &mut self.book, self.groups.len(), list);
        if after.is_empty() {
            assert_eq!(answer, Err(Refusal::Impossible), "{list:?}");
        } else {
            self.groups.push(set(list));
            self.left = after;
            assert_eq!(answer, Ok(self.groups.len()), "{list:?}");
        }
        assert_eq!(allowed(&self.nodes, self.size), self.left, "{list:?}");
        assert!(!has_three(&self.nodes), "{list:?}");
    }

    /// Checks the standard order, the aims and the conflict list of the group.
    fn read(&self, all: &[Vec<u16>], list: &[u16]) {
        let Size { layout, n } = self.size;
        let (mut order, mut conflicts) = (vec![0; n], vec![0; 96]);
        assert_eq!(tokuwhape::order(layout, n, &self.nodes, &mut order), Ok(n));
        assert_eq!(order, self.left[0]);
        for (i, &group) in self.groups.iter().enumerate() {
            let answer = tokuwhape::aim(layout, n, &self.nodes, &self.book, self.groups.len(), i + 1);
            assert_eq!(answer, aim(layout, group, &order));
        }
        let wanted = conflict(layout, all, &self.groups, set(list));
        assert_eq!(tokuwhape::conflict(layout, n, &self.book, self.groups.len(), list, &mut conflicts), Ok(wanted.len()));
        assert_eq!(conflicts[..wanted.len()], wanted);
        assert!(conflicts[wanted.len()..].iter().all(|&place| place == 0));
    }
}

/// Joins random groups to fresh rings or racks of 1 to 6 leaves, `times` for each leaf, and compares each answer with all orders.
fn check_grown(seed: u64, layout: Layout, times: usize) {
    let mut draw = Draw::new(seed);
    for n in 1..=6 {
        let size = Size { layout, n };
        let all = orders(size);
        for _ in 0..times * n {
            let mut grown = Watched::fresh(size);
            for _ in 0..6 {
                let list = draw.group(n);
                grown.read(&all, &list);
                grown.join(&list);
            }
        }
    }
}

#[test]
fn small_rings_allow_what_all_orders_say() {
    check_grown(0x0123_4567_89ab_cdef, Ring, 40);
}

#[test]
fn small_racks_allow_what_all_orders_say() {
    check_grown(0x89ab_cdef_0123_4567, Rack, 20);
}

/// Joins random groups to trees of 3 to 6 leaves that were read from texts.
#[test]
fn small_trees_allow_what_all_orders_say() {
    let mut draw = Draw::new(0xfedc_ba98_7654_3210);
    let mut accepted = 0;
    for _ in 0..2_000 {
        let (layout, leaves) = (draw.pick(&[Ring, Rack]), 3 + draw.below(4));
        let size = Size { layout, n: if layout == Ring { leaves } else { leaves - 1 } };
        let text = shaped(&mut draw, leaves);
        let Some(mut read) = Watched::of_text(size, &text) else { continue };
        accepted += 1;
        let all = orders(size);
        for _ in 0..3 {
            let list = draw.group(size.n);
            read.read(&all, &list);
            read.join(&list);
        }
    }
    assert!(accepted > 500, "only {accepted} texts");
}

/// Every two groups of a ring of 5 leaves, and of a rack, in both sequences.
#[test]
fn every_two_groups_of_five_leaves() {
    let groups: Vec<Vec<u16>> = (0..32u16).map(|marks| (1..=5).filter(|leaf| marks >> (leaf - 1) & 1 == 1).collect()).collect();
    for layout in [Ring, Rack] {
        for first in &groups {
            for second in &groups {
                let mut grown = Watched::fresh(Size { layout, n: 5 });
                grown.join(first);
                grown.join(second);
            }
        }
    }
}

/// Intersects random trees of 1 to 6 leaves that were read from texts, and compares the orders left with those of both.
#[test]
fn small_trees_intersect_as_their_orders_do() {
    let mut draw = Draw::new(0x1357_9bdf_0246_8ace);
    let (mut done, mut refused) = (0, 0);
    for _ in 0..6_000 {
        let n = 1 + draw.below(6);
        let size = draw.laid(n);
        let texts = [shaped(&mut draw, size.leaves()), shaped(&mut draw, size.leaves())];
        let [Some(one), Some(other)] = texts.map(|text| Watched::of_text(size, &text)) else { continue };
        let both: Vec<_> = one.left.iter().filter(|order| other.left.contains(order)).cloned().collect();
        let mut third = vec![Node { kind: 7, count: 7, items: [7; 255] }; 256];
        let answer = tokuwhape::intersect(size.layout, n, &one.nodes, size.layout, n, &other.nodes, &mut third);
        if both.is_empty() {
            assert_eq!(answer, Err(Refusal::Impossible));
            refused += 1;
            continue;
        }
        assert_eq!(answer, Ok(0));
        assert_eq!(allowed(&third, size), both);
        assert!(!has_three(&third));
        done += 1;
    }
    assert!(done > 500 && refused > 50, "only {done} intersections and {refused} refused");
}
