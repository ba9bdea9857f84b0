//! Rings and racks grown by random joins, and the same with damaged tables.
use crate::damage::damage_nodes;
use crate::draw::Draw;
use crate::tables::{Call, Sides, Size, Tally};
use tokuwhape::{Layout, Node};

/// A ring or a rack that was grown by joins.
#[derive(Clone)]
pub struct Grown {
    pub size: Size,
    pub count: usize,
    pub hidden: Vec<u16>,
    pub sides: Sides,
}

/// A record with numbers in it that no call is to look at or touch.
pub fn odd_record(draw: &mut Draw) -> Node {
    let mut items = [0; 255];
    items.fill_with(|| draw.number() as u16);
    Node { kind: draw.number() as u16, count: draw.number() as u16, items }
}

/// Both sides' tables, of their stated size or longer, full of old numbers.
fn lent(draw: &mut Draw) -> Sides {
    let records = draw.pick(&[256, 256, 256, 257, 258]);
    let words = draw.pick(&[384, 384, 384, 385, 400]);
    let old = odd_record(draw);
    let mut nodes = vec![old; 256];
    nodes.resize_with(records, || odd_record(draw));
    let mut book = vec![0; words];
    book.fill_with(|| draw.number());
    Sides::new(nodes, book)
}

/// A list to join: mostly a run of the hidden order, so that it is kept.
fn list_for(draw: &mut Draw, layout: Layout, hidden: &[u16], odd: usize) -> Vec<u16> {
    if draw.one_in(odd) {
        return draw.list(hidden.len());
    }
    if draw.one_in(6) {
        return draw.group(hidden.len());
    }
    draw.run(layout, hidden)
}

/// Tables to fill, of their stated size or longer.
fn room(draw: &mut Draw, sides: &mut Sides, n: usize) {
    let (more, old) = (draw.pick(&[0, 0, 1, 7]), draw.number() as u16);
    sides.refill(n + more, 96 + more, 2048 + more, old);
}

/// Opens a ring or a rack and tries and joins up to `steps` lists, with the calls that read one between. A conflict call is made one time in
/// `conflicts`. Returns the ring or rack.
pub fn grow(tally: &mut Tally, draw: &mut Draw, size: Size, steps: usize, conflicts: usize) -> Grown {
    let mut grown = Grown { size, count: 0, hidden: draw.leaves(size.n), sides: lent(draw) };
    assert_eq!(grown.sides.call(tally, size, Call::Open), Ok(0));
    for _ in 0..steps {
        step(tally, draw, &mut grown, conflicts);
    }
    grown
}

/// One list tried and joined, and one other call.
fn step(tally: &mut Tally, draw: &mut Draw, grown: &mut Grown, conflicts: usize) {
    let size = grown.size;
    let list = list_for(draw, size.layout, &grown.hidden, 12);
    room(draw, &mut grown.sides, size.n);
    let tried = grown.sides.call(tally, size, Call::Trial(grown.count, &list));
    let conflict = draw.one_in(conflicts).then(|| grown.sides.call(tally, size, Call::Conflict(grown.count, &list)));
    let joined = grown.sides.call(tally, size, Call::Join(grown.count, &list));
    assert_eq!(tried, joined, "a trial answers as joining would");
    if let (Some(Ok(numbers)), Err((8, _)) | Ok(_)) = (conflict, joined) {
        assert_eq!(numbers == 0, joined.is_ok(), "a group is refused exactly if it has a conflict");
    }
    grown.count = joined.unwrap_or(grown.count);
    match draw.below(4) {
        0 => assert_eq!(grown.sides.call(tally, size, Call::Order), Ok(size.n)),
        1 => drop(grown.sides.call(tally, size, Call::Aim(grown.count, draw.below(grown.count + 2)))),
        2 => written_and_read(tally, grown),
        _ => {}
    }
}

/// Writes the tree and reads it again from its text, into the same tables and a book that keeps its groups.
fn written_and_read(tally: &mut Tally, grown: &mut Grown) {
    let length = grown.sides.call(tally, grown.size, Call::Write).expect("the tables are in form");
    let text = grown.sides.text(length);
    let mut copy = grown.sides.clone();
    assert_eq!(copy.call(tally, grown.size, Call::Read(&text)), Ok(0));
    assert!(copy.ours.nodes == grown.sides.ours.nodes, "a text has one table");
}

/// Changes one field of the book, or its count.
fn damage_book(draw: &mut Draw, n: usize, book: &mut [u64], count: &mut usize) {
    let group = draw.below(*count + 1).min(95);
    match draw.below(6) {
        0 => book[draw.below(384)] ^= 1 << draw.below(64),
        1 => book[4 * group + n / 64 % 4] ^= 1 << (n % 64),
        2 => book[4 * group..4 * group + 4].fill(0),
        3 => book[4 * group + draw.below(4)] = draw.number(),
        4 => *count = draw.below(98),
        _ => *count = draw.pick(&[*count + 1, 95, 96, 97, 65_536, usize::MAX, usize::MAX / 4 + 1]),
    }
}

/// Lends tables of another length, each too short one time in some.
fn other_lengths(draw: &mut Draw, n: usize, nodes: &mut Vec<Node>, book: &mut Vec<u64>) -> [usize; 3] {
    if draw.one_in(3) {
        nodes.truncate(draw.pick(&[0, 1, 255, 255, 255]));
    }
    if draw.one_in(3) {
        book.truncate(draw.pick(&[0, 4, 380, 383, 383]));
    }
    let few = draw.one_in(3) as usize;
    let places = n.min(300);
    if draw.one_in(8) {
        return [0, 0, 0];
    }
    [(places - few.min(places)), 96 - few, 2048 - few]
}

/// The node table of the fresh ring or rack.
pub fn lent_fresh(Size { layout, n }: Size) -> Vec<Node> {
    let mut nodes = vec![Node::UNUSED; 256];
    assert_eq!(tokuwhape::open(layout, n, &mut nodes, &mut vec![0; 384]), Ok(0));
    nodes
}

/// One call on grown tables, damaged, shortened or lent with another size; or on a node table and the book of another ring or rack.
pub fn damaged(tally: &mut Tally, draw: &mut Draw, grown: &Grown, other: &Grown) {
    let (mut size, mut count) = (grown.size, grown.count);
    let (n, leaves) = (size.n, size.leaves());
    let (mut nodes, mut book) = (grown.sides.ours.nodes.clone(), grown.sides.ours.book.clone());
    let mut places = [n, 96, 2048];
    match draw.below(10) {
        0..=3 => damage_nodes(draw, leaves, &mut nodes),
        4 | 5 => damage_book(draw, n, &mut book, &mut count),
        6 => size = draw.other_size(size),
        7 if draw.one_in(2) => (book, count) = (other.sides.ours.book.clone(), other.count),
        7 => nodes = lent_fresh(size),
        8 => places = other_lengths(draw, n, &mut nodes, &mut book),
        _ => {
            damage_nodes(draw, leaves, &mut nodes);
            damage_book(draw, n, &mut book, &mut count);
            places = other_lengths(draw, n, &mut nodes, &mut book);
        }
    }
    let mut sides = Sides::new(nodes, book);
    sides.refill(places[0], places[1], places[2], draw.number() as u16);
    let list = list_for(draw, size.layout, &grown.hidden, 3);
    any_call(tally, draw, &mut sides, size, count, &list);
}

/// One call of any kind.
fn any_call(tally: &mut Tally, draw: &mut Draw, sides: &mut Sides, size: Size, count: usize, list: &[u16]) {
    let drawn = draw.below(97);
    let group = draw.pick(&[0, 1, count / 2, count, count.wrapping_add(1), usize::MAX, drawn]);
    let text = draw.pick(&[&b"1"[..], b"1 2", b"1 P(2 3)", b"1 P(2 3 4)", b"1 C(P(2 4) 5 3)", b""]);
    let call = match draw.below(16) {
        0 => Call::Open,
        1..=3 => Call::Join(count, list),
        4..=6 => Call::Trial(count, list),
        7 | 8 => Call::Order,
        9..=11 => Call::Aim(count, group),
        12 => Call::Conflict(count, list),
        13 | 14 => Call::Write,
        _ => Call::Read(text),
    };
    let _ = sides.call(tally, size, call);
}

/// A conflict call on a book of any groups, empty ones too, which may be impossible together, repeat and be a part of the leaves each.
pub fn conflict(tally: &mut Tally, draw: &mut Draw, size: Size, count: usize) {
    let Size { layout, n } = size;
    let hidden = draw.leaves(n);
    let wild = draw.pick(&[1, 3, 10, 1000]);
    let mut book = vec![0u64; draw.pick(&[384, 384, 385])];
    for group in 0..count {
        let list = if draw.one_in(wild) { draw.group(n) } else { draw.run(layout, &hidden) };
        for leaf in list {
            let mark = leaf as usize - 1;
            book[4 * group + mark / 64] |= 1 << (mark % 64);
        }
    }
    let list = if draw.one_in(20) { draw.list(n) } else { draw.group(n) };
    let mut sides = Sides::new(Vec::new(), book);
    let more = draw.pick(&[0, 0, 1, 5]);
    sides.refill(0, 96 + more, 0, draw.number() as u16);
    let _ = sides.call(tally, size, Call::Conflict(count, &list));
}
