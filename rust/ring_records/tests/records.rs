//! The calls on node records: circle e of document 01, the same groups on a rack, every refusal, and tables of 255, 256 and 257 records.
use ring_records::Layout::{self, Rack, Ring};
use ring_records::{aim, intersect, join, open, order, read, trial, write, Answer, Node};

/// A record with numbers in it that no call is to look at or touch.
const SENTINEL: Node = Node { kind: 171, count: 43_981, items: [52_719; 255] };

/// The tables of a ring or a rack of five leaves.
#[derive(Clone, PartialEq, Debug)]
struct Tables {
    nodes: Vec<Node>,
    book: Vec<u64>,
}

/// A record of this kind with these items.
fn record(kind: u8, items: &[u16]) -> Node {
    let mut node = Node { kind, count: items.len() as u16, ..Node::UNUSED };
    node.items[..items.len()].copy_from_slice(items);
    node
}

/// Five leaves, {1, 3} and {3, 5} joined; the table has so many records, those past the 256th sentinels.
fn joined(layout: Layout, records: usize) -> Tables {
    let mut tables = Tables { nodes: vec![SENTINEL; 256], book: vec![u64::MAX; 384] };
    open(layout, 5, &mut tables.nodes, &mut tables.book).unwrap();
    join(layout, 5, &mut tables.nodes, &mut tables.book, 0, &[1, 3]).unwrap();
    join(layout, 5, &mut tables.nodes, &mut tables.book, 1, &[3, 5]).unwrap();
    tables.nodes.resize(records, SENTINEL);
    tables
}

/// Circle e, with so many records.
fn circle_e(records: usize) -> Tables {
    joined(Ring, records)
}

/// Joins the list to circle e and checks that it is refused so, by a trial too, and that no table changes.
fn refuses(change: impl Fn(&mut Tables), count: usize, list: &[u16], refusal: (u8, usize)) {
    let mut tables = circle_e(257);
    change(&mut tables);
    let before = tables.clone();
    assert_eq!(trial(Ring, 5, &tables.nodes, &tables.book, count, list), Err(refusal));
    assert_eq!(join(Ring, 5, &mut tables.nodes, &mut tables.book, count, list), Err(refusal));
    assert_eq!(tables, before);
}

#[test]
fn circle_e_on_records() {
    let Tables { nodes, book } = circle_e(257);
    assert_eq!(nodes[0], record(2, &[257, 5, 3]));
    assert_eq!(nodes[1], record(1, &[2, 4]));
    assert!(nodes[2..256].iter().all(|node| *node == Node::UNUSED));
    assert_eq!(nodes[256], SENTINEL);
    assert_eq!((book[0], book[4]), (0b00101, 0b10100));
    let mut bytes = [255; 2049];
    assert_eq!(write(Ring, 5, &nodes, &mut bytes), Ok(15));
    assert_eq!(&bytes[..15], b"1 C(P(2 4) 5 3)");
    assert!(bytes[15..2048].iter().all(|byte| *byte == 0) && bytes[2048] == 255);
    let mut leaves = [9; 6];
    assert_eq!(order(Ring, 5, &nodes, &mut leaves), Ok(5));
    assert_eq!(leaves, [1, 2, 4, 5, 3, 9]);
    assert_eq!(aim(Ring, 5, &nodes, &book, 2, 1), Ok(1));
    assert_eq!(aim(Ring, 5, &nodes, &book, 2, 2), Ok(3));
}

#[test]
fn a_rack_on_records() {
    let Tables { mut nodes, mut book } = joined(Rack, 257);
    assert_eq!(nodes[0], record(2, &[257, 5, 3]));
    assert_eq!(nodes[1], record(1, &[2, 4, 6]));
    assert!(nodes[2..256].iter().all(|node| *node == Node::UNUSED));
    assert_eq!(nodes[256], SENTINEL);
    let mut bytes = [255; 2048];
    assert_eq!(write(Rack, 5, &nodes, &mut bytes), Ok(17));
    assert_eq!(&bytes[..18], b"1 C(P(2 4 6) 5 3)\0");
    let mut leaves = [9; 6];
    assert_eq!(order(Rack, 5, &nodes, &mut leaves), Ok(5));
    assert_eq!(leaves, [1, 3, 5, 2, 4, 9]);
    assert_eq!([1, 2].map(|group| aim(Rack, 5, &nodes, &book, 2, group)), [Ok(1), Ok(5)]);
    assert_eq!(trial(Rack, 5, &nodes, &book, 2, &[1, 5]), Err((8, 0)));
    assert_eq!(join(Rack, 5, &mut nodes, &mut book, 2, &[2, 4]), Ok(3));
    assert_eq!(read(Rack, 5, &mut nodes, &mut book, b"1 C(P(2 4 6) 5 3)"), Ok(0));
    assert!(nodes == joined(Rack, 257).nodes);
}

#[test]
fn refusals_of_racks() {
    let tables = joined(Rack, 256);
    for (n, number) in [(0, 1), (256, 15), (257, 1)] {
        let Tables { mut nodes, mut book } = tables.clone();
        let answers = [
            open(Rack, n, &mut nodes, &mut book[..383]),
            join(Rack, n, &mut nodes, &mut book[..383], 2, &[2, 4]),
            trial(Rack, n, &nodes, &book[..383], 2, &[2, 4]),
            order(Rack, n, &nodes, &mut []),
            aim(Rack, n, &nodes, &book[..383], 2, 1),
            write(Rack, n, &nodes, &mut []),
            read(Rack, n, &mut nodes, &mut book[..383], b""),
        ];
        assert_eq!(answers, [Err((number, 0)); 7]);
        assert!(Tables { nodes, book } == tables);
    }
    let Tables { nodes, mut book } = tables;
    assert_eq!(trial(Ring, 5, &nodes, &book, 2, &[2, 4]), Err((3, 0)));
    assert_eq!(trial(Rack, 5, &nodes, &book, 2, &[2, 6]), Err((5, 1)));
    book[4] |= 0b100000;
    assert_eq!(trial(Rack, 5, &nodes, &book, 2, &[2, 4]), Err((3, 0)));
    book[4] = 0b10010;
    assert_eq!(aim(Rack, 5, &nodes, &book, 2, 2), Ok(5));
    book[4] = 0b01001;
    assert_eq!(aim(Rack, 5, &nodes, &book, 2, 2), Err((10, 0)));
}

#[test]
fn circles_f_and_g_on_records() {
    let Tables { mut nodes, mut book } = circle_e(256);
    refuses(|_| {}, 2, &[1, 5], (8, 0));
    let tree = nodes.clone();
    assert_eq!(join(Ring, 5, &mut nodes, &mut book, 2, &[2, 4]), Ok(3));
    assert!(nodes == tree && book[8] == 0b01010);
}

#[test]
fn refusals_of_joining_and_trial() {
    refuses(|t| t.nodes.truncate(255), 2, &[2, 4], (2, 0));
    refuses(|t| t.book.truncate(383), 2, &[2, 4], (2, 0));
    refuses(|t| t.nodes[0].kind = 1, 2, &[2, 4], (3, 0));
    refuses(|t| t.nodes[1].kind = 2, 2, &[2, 4], (3, 0));
    refuses(|t| t.nodes[255].items[254] = 1, 2, &[2, 4], (3, 0));
    refuses(|t| t.book[0] = 0b100000, 2, &[2, 4], (3, 0));
    refuses(|_| {}, 1, &[2, 4], (3, 0));
    refuses(|_| {}, 97, &[2, 4], (3, 0));
    refuses(|_| {}, 2, &[2, 0, 6], (5, 1));
    refuses(|_| {}, 2, &[2, 4, 6], (5, 2));
    refuses(|_| {}, 2, &[2, 4, 2, 6], (6, 2));
    refuses(|t| t.book[..384].fill_with(|| 0b11111), 96, &[1, 5], (3, 0));
    refuses(|t| (0..96).for_each(|group| t.book[4 * group] = 0b11111), 96, &[1, 5], (7, 0));
    refuses(|t| (0..96).for_each(|group| t.book[4 * group] = 0b11111), 96, &[], (7, 0));
    refuses(|_| {}, 2, &[1, 5], (8, 0));
}

/// An empty group takes a place of the book, changes no tree, and has no aim.
#[test]
fn empty_groups_on_records() {
    let Tables { mut nodes, mut book } = circle_e(257);
    assert_eq!(trial(Ring, 5, &nodes, &book, 2, &[]), Ok(3));
    assert_eq!(join(Ring, 5, &mut nodes, &mut book, 2, &[]), Ok(3));
    assert!(Tables { nodes: nodes.clone(), book: book.clone() } == circle_e(257));
    assert_eq!(join(Ring, 5, &mut nodes, &mut book, 3, &[2, 4]), Ok(4));
    assert_eq!(aim(Ring, 5, &nodes, &book, 4, 3), Err((14, 0)));
    assert_eq!(aim(Ring, 5, &nodes, &book, 4, 4), Ok(4));
}

#[test]
fn refusals_of_the_other_calls() {
    let Tables { nodes, book } = circle_e(256);
    for n in [0, 257, usize::MAX] {
        let mut tables = circle_e(256);
        assert_eq!(open(Ring, n, &mut tables.nodes, &mut tables.book), Err((1, 0)));
        assert_eq!(read(Ring, n, &mut tables.nodes, &mut tables.book, b"1"), Err((1, 0)));
        assert_eq!(tables, circle_e(256));
    }
    let (mut leaves, mut bytes) = ([9; 4], [9; 2047]);
    assert_eq!(order(Ring, 5, &nodes, &mut leaves), Err((2, 0)));
    assert_eq!(write(Ring, 5, &nodes, &mut bytes), Err((2, 0)));
    assert_eq!(order(Ring, 4, &nodes, &mut leaves), Err((3, 0)));
    assert!(leaves == [9; 4] && bytes == [9; 2047]);
    assert_eq!(aim(Ring, 5, &nodes, &book, 2, 0), Err((9, 0)));
    assert_eq!(aim(Ring, 5, &nodes, &book, 2, 3), Err((9, 0)));
    let mut apart = book.clone();
    apart[4] = 0b01001;
    assert_eq!(aim(Ring, 5, &nodes, &apart, 2, 2), Err((10, 0)));
}

#[test]
fn refusals_of_texts() {
    for (text, byte) in [("1 C(P(2 4) 5 5)", 13), ("1 C(P(4 2) 3 5)", 8), ("1 C(5 3 P(2 4))", 4), ("1 C(P(2 4) 5 3", 14), ("", 0)] {
        let mut tables = circle_e(256);
        assert_eq!(read(Ring, 5, &mut tables.nodes, &mut tables.book, text.as_bytes()), Err((12, byte)), "{text}");
        assert_eq!(tables, circle_e(256));
    }
}

/// A text that names a node with three neighbours C is read as one that names it P.
#[test]
fn three_neighbours_on_records() {
    let mut tables = circle_e(256);
    tables.nodes[..256].fill(SENTINEL);
    assert_eq!(read(Ring, 5, &mut tables.nodes, &mut tables.book, b"1 C(C(2 4) 5 3)"), Ok(0));
    assert_eq!(tables.nodes, circle_e(256).nodes);
    assert!(tables.book.iter().all(|word| *word == 0));
}

/// The node table of the fresh tree of n leaves with this group joined, and a sentinel past it.
fn with_group(layout: Layout, n: usize, group: &[u16]) -> Vec<Node> {
    let (mut nodes, mut book) = (vec![SENTINEL; 257], vec![0; 384]);
    open(layout, n, &mut nodes, &mut book).unwrap();
    join(layout, n, &mut nodes, &mut book, 0, group).unwrap();
    nodes
}

#[test]
fn intersections_on_records() {
    for layout in [Ring, Rack] {
        let (one, other) = (with_group(layout, 5, &[1, 3]), with_group(layout, 5, &[3, 5]));
        for (nodes, other) in [(&one, &other), (&other, &one)] {
            let mut third = vec![SENTINEL; 257];
            assert_eq!(intersect(layout, 5, nodes, layout, 5, other, &mut third), Ok(0));
            assert!(third == joined(layout, 257).nodes);
        }
    }
}

#[test]
fn refusals_of_intersections() {
    let mut third = circle_e(257).nodes;
    let mut refuses = |(layout, n): (Layout, usize), nodes: &[Node], (layout2, m), other: &[Node], records: usize, refusal: u8| {
        assert_eq!(intersect(layout, n, nodes, layout2, m, other, &mut third[..records]), Err((refusal, 0)));
        assert!(third == circle_e(257).nodes);
    };
    let (one, other) = (with_group(Ring, 5, &[1, 3]), with_group(Ring, 5, &[3, 5]));
    let (six, near) = (with_group(Ring, 6, &[1, 3]), with_group(Ring, 5, &[1, 5]));
    let mut broken = one.clone();
    broken[0].kind = 3;
    refuses((Ring, 0), &one, (Ring, 5), &other, 257, 1);
    refuses((Ring, 5), &one[..255], (Ring, 257), &other, 257, 1);
    refuses((Rack, 256), &one, (Ring, 257), &other, 257, 1);
    refuses((Rack, 256), &one[..255], (Ring, 5), &other, 257, 15);
    refuses((Ring, 5), &one, (Rack, 256), &other[..255], 257, 15);
    refuses((Ring, 5), &one[..255], (Ring, 6), &six, 257, 2);
    refuses((Ring, 5), &one, (Ring, 6), &six[..255], 257, 2);
    refuses((Ring, 5), &one, (Ring, 6), &six, 255, 2);
    refuses((Ring, 5), &broken, (Ring, 6), &six, 256, 13);
    refuses((Rack, 5), &six, (Ring, 6), &six, 256, 13);
    refuses((Ring, 5), &broken, (Rack, 5), &six, 256, 13);
    refuses((Ring, 5), &broken, (Ring, 5), &other, 256, 3);
    refuses((Ring, 5), &other, (Ring, 5), &six, 256, 3);
    refuses((Rack, 5), &six, (Rack, 5), &other, 256, 3);
    refuses((Ring, 5), &circle_e(256).nodes, (Ring, 5), &near, 256, 8);
}

/// The call that has three tables of rows on the stack at once, on 254 P-nodes one in another, in a thread with 1 MiB of stack.
#[test]
fn a_mebibyte_of_stack_is_enough() {
    let call = || {
        let opened: String = (2..256).map(|leaf| format!("P({leaf} ")).collect();
        let (mut nodes, mut third, mut book) = (vec![SENTINEL; 257], vec![SENTINEL; 257], vec![0; 384]);
        assert_eq!(read(Ring, 256, &mut nodes, &mut book, format!("1 {opened}256{}", ")".repeat(254)).as_bytes()), Ok(0));
        assert_eq!(intersect(Ring, 256, &nodes, Ring, 256, &nodes, &mut third), Ok(0));
        assert!(third == nodes);
    };
    std::thread::Builder::new().stack_size(1 << 20).spawn(call).expect("a thread").join().expect("the call");
}

/// A call on five leaves.
type OnTables = fn(Layout, &mut Tables) -> Answer;

/// Each call that is lent a node table, on five leaves with so many records: its answer, and the tables afterwards.
fn each_call(layout: Layout, records: usize) -> Vec<(Answer, Tables)> {
    let calls: [OnTables; 8] = [
        |layout, t| open(layout, 5, &mut t.nodes, &mut t.book),
        |layout, t| join(layout, 5, &mut t.nodes, &mut t.book, 2, &[2, 4]),
        |layout, t| trial(layout, 5, &t.nodes, &t.book, 2, &[2, 4]),
        |layout, t| order(layout, 5, &t.nodes, &mut [0; 5]),
        |layout, t| aim(layout, 5, &t.nodes, &t.book, 2, 1),
        |layout, t| write(layout, 5, &t.nodes, &mut [0; 2048]),
        |layout, t| read(layout, 5, &mut t.nodes, &mut t.book, if layout == Ring { b"1 P(2 3 4 5)" } else { b"1 P(2 3 4 5 6)" }),
        |layout, t| intersect(layout, 5, &t.nodes.clone(), layout, 5, &t.nodes.clone(), &mut t.nodes),
    ];
    let made = calls.map(|call| {
        let mut tables = joined(layout, records);
        (call(layout, &mut tables), tables)
    });
    made.to_vec()
}

#[test]
fn tables_of_255_256_and_257_records() {
    for layout in [Ring, Rack] {
        for (answer, tables) in each_call(layout, 255) {
            assert_eq!(answer, Err((2, 0)));
            assert_eq!(tables, joined(layout, 255));
        }
        for ((answer, tables), (longer, mut others)) in each_call(layout, 256).into_iter().zip(each_call(layout, 257)) {
            assert!(answer.is_ok() && answer == longer);
            assert_eq!(others.nodes.pop(), Some(SENTINEL));
            assert_eq!(tables, others);
        }
    }
}
