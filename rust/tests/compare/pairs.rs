//! Pairs of trees: their intersection, also with damaged tables, tables of other lengths, other numbers of leaves and other layouts.
use crate::damage::damage_nodes;
use crate::draw::Draw;
use crate::rings::{lent_fresh, odd_record};
use crate::tables::{Call, Sides, Size, Tally};
use crate::texts::shaped;
use tokuwhape::Node;

/// What an intersection is lent: two trees, each with its size, and a table to fill.
struct Pair {
    size: Size,
    nodes: Vec<Node>,
    other_size: Size,
    other: Vec<Node>,
    third: Vec<Node>,
}

/// The node table of a ring or rack to which some runs of the hidden order were joined, and now and then other groups.
fn grown(draw: &mut Draw, size: Size, hidden: &[u16]) -> Vec<Node> {
    let Size { layout, n } = size;
    let (mut nodes, mut book, mut count) = (lent_fresh(size), vec![0; 384], 0);
    let (groups, wild) = (draw.pick(&[0, 2, 6, 20, 60]), draw.pick(&[5, 1000, 1000]));
    for _ in 0..draw.below(groups + 1) {
        let list = if draw.one_in(wild) { draw.group(n) } else { draw.run(layout, hidden) };
        count = tokuwhape::join(layout, n, &mut nodes, &mut book, count, &list).unwrap_or(count);
    }
    nodes
}

/// The node table of an accepted text of the shape, with any nodes; those with three neighbours are P-nodes, however the text names them.
fn read(draw: &mut Draw, size: Size) -> Vec<Node> {
    let (mut nodes, mut book) = (vec![Node::UNUSED; 256], vec![0; 384]);
    while tokuwhape::read(size.layout, size.n, &mut nodes, &mut book, &shaped(draw, size.leaves())).is_err() {}
    nodes
}

/// The node table of a tree of this size.
fn tree(draw: &mut Draw, size: Size, hidden: &[u16]) -> Vec<Node> {
    if draw.one_in(2) {
        return read(draw, size);
    }
    grown(draw, size, hidden)
}

/// Two trees of one size, the hidden order of both mostly the same, and often that of the texts.
fn drawn(draw: &mut Draw) -> Pair {
    let size = draw.size();
    let rising: Vec<u16> = (1..=size.n as u16).collect();
    let hidden = if draw.one_in(2) { draw.leaves(size.n) } else { rising };
    let second = if draw.one_in(6) { draw.leaves(size.n) } else { hidden.clone() };
    let mut third = vec![odd_record(draw); 256];
    third.resize_with(draw.pick(&[256, 256, 257, 258]), || odd_record(draw));
    Pair { size, nodes: tree(draw, size, &hidden), other_size: size, other: tree(draw, size, &second), third }
}

/// Makes one change: another size, a damaged tree, or a table of another length.
fn change(draw: &mut Draw, pair: &mut Pair) {
    let (first, at) = (draw.one_in(2), draw.pick(&[0, 1, 255, 255, 255]));
    let (size, nodes) = if first { (&mut pair.size, &mut pair.nodes) } else { (&mut pair.other_size, &mut pair.other) };
    let near = Size { n: size.n.clamp(1, 256), ..*size };
    match draw.below(8) {
        0 => *size = draw.other_size(near),
        1 => {
            *size = draw.size();
            *nodes = read(draw, *size);
        }
        2 => nodes.truncate(at),
        3 => nodes.resize_with(257, || odd_record(draw)),
        4 => pair.third.truncate(at),
        _ if nodes.len() >= 256 => damage_nodes(draw, near.leaves(), nodes),
        _ => {}
    }
}

/// The intersection of two trees, some of them changed, in both sequences, and that of what it gives with the first.
pub fn any(tally: &mut Tally, draw: &mut Draw) {
    let mut pair = drawn(draw);
    for _ in 0..draw.pick(&[0, 0, 1, 2]) {
        change(draw, &mut pair);
    }
    let Pair { size, nodes, other_size, other, third } = &pair;
    let mut sides = Sides::of_two(nodes, other, third);
    let answer = sides.call(tally, *size, Call::Intersect(*other_size));
    let mut turned = Sides::of_two(other, nodes, third);
    assert_eq!(turned.call(tally, *other_size, Call::Intersect(*size)), answer);
    assert!(turned.ours.third == sides.ours.third, "an intersection has one table");
    if answer.is_ok() {
        let mut again = Sides::of_two(&sides.ours.third, nodes, third);
        assert_eq!(again.call(tally, *size, Call::Intersect(*size)), Ok(0));
        assert!(again.ours.third == sides.ours.third, "an intersection is in both trees");
    }
}
