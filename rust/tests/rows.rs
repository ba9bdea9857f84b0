//! Circle e of document 01, and the same groups on a rack: their node tables in numbers, lent to the archive's functions with any count of them;
//! their conflicts; ring files and test loads; and rings and racks that own their tables.
use tokuwhape::symbols::*;
use tokuwhape::{Bins, Circular, File, Layout, Node, Orders, Rack, Refusal, Ring, RingFile, Straight};

/// Numbers of a node table.
const NUMBERS: usize = 256 * 257;
/// What stands past a table's stated size.
const OLD: u16 = 52_719;

/// Both layouts.
const LAYOUTS: [Layout; 2] = [Layout::Ring, Layout::Rack];

/// The tables of a ring or a rack of five leaves, the node table as its numbers.
#[derive(Clone, PartialEq, Debug)]
struct Rows {
    layout: Layout,
    numbers: Vec<u16>,
    book: Vec<u64>,
}

/// A record's numbers.
fn row(node: &Node) -> Vec<u16> {
    [&[node.kind, node.count][..], &node.items].concat()
}

/// Five leaves, {1, 3} and {3, 5} joined: circle e, or a rack. The node table has so many numbers, those past the 256th record old.
fn joined(layout: Layout, numbers: usize) -> Rows {
    let (mut nodes, mut book) = (vec![Node { kind: OLD, count: OLD, items: [OLD; 255] }; 256], vec![u64::MAX; 384]);
    assert_eq!(tokuwhape::open(layout, 5, &mut nodes, &mut book), Ok(0));
    assert_eq!(tokuwhape::join(layout, 5, &mut nodes, &mut book, 0, &[1, 3]), Ok(1));
    assert_eq!(tokuwhape::join(layout, 5, &mut nodes, &mut book, 1, &[3, 5]), Ok(2));
    let mut rows = Rows { layout, numbers: nodes.iter().flat_map(row).collect(), book };
    rows.numbers.resize(numbers, OLD);
    rows
}

/// A call on these tables, told this number as their layout, which writes its value.
type OnRows = fn(&mut Rows, u8, *mut usize) -> u8;

/// Each function that is lent a node table.
const CALLS: [OnRows; 8] = [
    |t, layout, value| unsafe {
        tokuwhape_open(layout, 5, t.numbers.as_mut_ptr().cast(), t.numbers.len(), t.book.as_mut_ptr(), 384, value)
    },
    |t, layout, value| unsafe {
        let list = [2, 4];
        tokuwhape_join(layout, 5, t.numbers.as_mut_ptr().cast(), t.numbers.len(), t.book.as_mut_ptr(), 384, 2, list.as_ptr(), 2, value)
    },
    |t, layout, value| unsafe {
        let list = [2, 4];
        tokuwhape_trial(layout, 5, t.numbers.as_ptr().cast(), t.numbers.len(), t.book.as_ptr(), 384, 2, list.as_ptr(), 2, value)
    },
    |t, layout, value| unsafe { tokuwhape_order(layout, 5, t.numbers.as_ptr().cast(), t.numbers.len(), [0; 5].as_mut_ptr(), 5, value) },
    |t, layout, value| unsafe { tokuwhape_aim(layout, 5, t.numbers.as_ptr().cast(), t.numbers.len(), t.book.as_ptr(), 384, 2, 1, value) },
    |t, layout, value| unsafe {
        tokuwhape_write(layout, 5, t.numbers.as_ptr().cast(), t.numbers.len(), [0; 2048].as_mut_ptr(), 2048, value)
    },
    |t, layout, value| unsafe {
        let (nodes, other, third) = (t.numbers.clone(), t.numbers.clone(), &mut t.numbers);
        let (one, two, both) = (nodes.as_ptr().cast(), other.as_ptr().cast(), third.as_mut_ptr().cast());
        tokuwhape_intersect(layout, 5, one, nodes.len(), t.layout as u8, 5, two, other.len(), both, third.len(), value)
    },
    |t, layout, value| unsafe {
        let text: &[u8] = if t.layout == Layout::Ring { b"1 P(2 3 4 5)" } else { b"1 P(2 3 4 5 6)" };
        let (tree, marks) = (t.numbers.as_mut_ptr().cast(), t.book.as_mut_ptr());
        tokuwhape_read(layout, 5, tree, t.numbers.len(), marks, 384, text.as_ptr(), text.len(), value)
    },
];

/// Makes the call on these tables, told this layout. Returns what it returns, its value, and the tables afterwards.
fn made(call: OnRows, mut rows: Rows, layout: u8) -> (u8, usize, Rows) {
    let mut value = 77;
    let returned = call(&mut rows, layout, &mut value);
    (returned, value, rows)
}

#[test]
fn too_few_numbers_are_refused() {
    for layout in LAYOUTS {
        for numbers in [0, 257, 255 * 257, NUMBERS - 256, NUMBERS - 1] {
            let rows = joined(layout, numbers);
            for call in CALLS {
                assert_eq!(made(call, rows.clone(), layout as u8), (2, 0, rows.clone()));
            }
        }
    }
}

#[test]
fn numbers_past_the_last_record_are_not_touched() {
    for layout in LAYOUTS {
        for more in [1, 2, 256, 257, 258] {
            for call in CALLS {
                let (returned, value, rows) = made(call, joined(layout, NUMBERS), layout as u8);
                let (again, other, mut longer) = made(call, joined(layout, NUMBERS + more), layout as u8);
                assert_eq!((returned, again, value), (0, 0, other));
                assert_eq!(longer.numbers.split_off(NUMBERS), vec![OLD; more]);
                assert!(longer == rows);
            }
        }
    }
}

/// Every number but 0 is the layout of a rack. A ring's table is not in form for a rack of as many leaves, nor a rack's for a ring.
#[test]
fn layouts_in_numbers() {
    let (ring, rack) = (joined(Layout::Ring, NUMBERS), joined(Layout::Rack, NUMBERS));
    for call in CALLS {
        for layout in [1, 2, 128, 255] {
            assert!(made(call, rack.clone(), layout) == made(call, rack.clone(), 1));
        }
    }
    for call in &CALLS[1..6] {
        assert!(made(*call, ring.clone(), 1) == (3, 0, ring.clone()));
        assert!(made(*call, rack.clone(), 0) == (3, 0, rack.clone()));
    }
    assert!(made(CALLS[6], ring.clone(), 1) == (13, 0, ring.clone()));
    assert!(made(CALLS[6], rack.clone(), 0) == (13, 0, rack));
}

#[test]
fn circle_e_in_numbers() {
    let Rows { numbers, book, .. } = joined(Layout::Ring, NUMBERS);
    assert_eq!(numbers[..6], [2, 3, 257, 5, 3, 0]);
    assert_eq!(numbers[257..262], [1, 2, 2, 4, 0]);
    assert_eq!((book[0], book[4]), (0b00101, 0b10100));
    assert_eq!(numbers.iter().filter(|number| **number != 0).count(), 9);
    assert_eq!(book.iter().filter(|word| **word != 0).count(), 2);
}

/// A rack's table has one leaf more, its hidden end.
#[test]
fn a_rack_in_numbers() {
    let Rows { numbers, book, .. } = joined(Layout::Rack, NUMBERS);
    assert_eq!(numbers[..6], [2, 3, 257, 5, 3, 0]);
    assert_eq!(numbers[257..263], [1, 3, 2, 4, 6, 0]);
    assert_eq!((book[0], book[4]), (0b00101, 0b10100));
    assert_eq!(numbers.iter().filter(|number| **number != 0).count(), 10);
    assert_eq!(book.iter().filter(|word| **word != 0).count(), 2);
}

/// Checks that each call that looks at the node table of five leaves refuses it with this number at a place, and changes nothing.
fn refused_with(layout: Layout, at: usize, number: u16) {
    let mut rows = joined(layout, NUMBERS);
    rows.numbers[at] = number;
    for call in &CALLS[1..7] {
        assert!(made(*call, rows.clone(), layout as u8) == (3, 0, rows.clone()));
    }
}

/// A kind above 255 is no kind, whatever its low byte.
#[test]
fn kinds_above_a_byte_are_refused() {
    for (at, kind) in [(0, 258), (0, 512), (257, 257), (257, 65_281), (514, 256), (255 * 257, 65_280)] {
        LAYOUTS.iter().for_each(|&layout| refused_with(layout, at, kind));
    }
}

/// A C-node has at least four neighbours: a table that holds one with three is refused, and a text that names one is read as a P-node there.
#[test]
fn three_neighbours() {
    refused_with(Layout::Ring, 257, 2);
    let cases = [
        (3, "1 C(2 3)", "1 P(2 3)"),
        (4, "1 C(2 C(3 4))", "1 P(2 P(3 4))"),
        (5, "1 C(C(2 4) 5 3)", "1 C(P(2 4) 5 3)"),
        (5, "1 C(C(3 2 4) 5)", "1 P(C(3 2 4) 5)"),
    ];
    for (n, text, written) in cases {
        let ring = Ring::from_text(n, text).unwrap();
        assert_eq!((ring.text().as_str(), Ring::from_text(n, written)), (written, Ok(ring.clone())));
    }
    assert_eq!(Ring::from_text(3, "1 C(3 2)"), Err(Refusal::TreeText(4)));
    assert_eq!(Ring::from_text(3, "1 P(3 2)"), Err(Refusal::TreeText(6)));
}

#[test]
fn conflicts_of_five_leaves() {
    for layout in LAYOUTS {
        let (book, mut conflicts) = (joined(layout, NUMBERS).book, [9; 97]);
        assert_eq!(tokuwhape::conflict(layout, 5, &book, 2, &[1, 5], &mut conflicts[..95]), Err(Refusal::ShortTable));
        assert_eq!(tokuwhape::conflict(layout, 5, &book[..383], 2, &[1, 5], &mut conflicts), Err(Refusal::ShortTable));
        assert_eq!(tokuwhape::conflict(layout, 5, &book, 2, &[1, 6], &mut conflicts), Err(Refusal::OutsideRing(1)));
        assert_eq!(conflicts, [9; 97]);
        assert_eq!(tokuwhape::conflict(layout, 5, &book, 2, &[1, 5], &mut conflicts), Ok(2));
        assert_eq!(conflicts[..3], [1, 2, 0]);
        assert!(conflicts[3..96].iter().all(|number| *number == 0) && conflicts[96] == 9);
        assert_eq!(tokuwhape::conflict(layout, 5, &book, 3, &[], &mut conflicts), Ok(0));
        assert!(conflicts[..96].iter().all(|number| *number == 0));
    }
}

/// Four pairs of a ring that hang together round the circle, but not between a rack's ends.
#[test]
fn conflicts_past_the_ends() {
    let (mut book, mut conflicts) = ([0; 384], [9; 96]);
    for (group, marks) in [0b0011, 0b0110, 0b1100].into_iter().enumerate() {
        book[4 * group] = marks;
    }
    assert_eq!(tokuwhape::conflict(Layout::Ring, 4, &book, 3, &[1, 4], &mut conflicts), Ok(0));
    assert_eq!(tokuwhape::conflict(Layout::Rack, 4, &book, 3, &[1, 4], &mut conflicts), Ok(3));
    assert_eq!(conflicts[..4], [1, 2, 3, 0]);
}

/// An empty group is in conflict with a book that is impossible by itself, but with no empty group of it.
#[test]
fn conflicts_of_an_impossible_book() {
    for layout in LAYOUTS {
        let (mut book, mut conflicts) = (joined(layout, NUMBERS).book, [9; 96]);
        book[12] = 0b10001;
        assert_eq!(tokuwhape::conflict(layout, 5, &book, 5, &[], &mut conflicts), Ok(3));
        assert_eq!(conflicts[..4], [1, 2, 4, 0]);
    }
}

#[test]
fn ring_files() {
    assert_eq!(tokuwhape::scan(b"A B A\n"), Err(Refusal::RingFile(5)));
    assert_eq!(tokuwhape::scan(&[b'A'; 65_537]), Err(Refusal::RingFile(65_536)));
    let file = b"A B C\n1 - 1\n0 0 0\n";
    let shape = tokuwhape::scan(file).unwrap();
    assert_eq!((shape.names, shape.head, shape.lines), (3, 6, 2));
    assert_eq!(tokuwhape::name_of(file, 2), b"C");
    let mut list = [9; 4];
    assert_eq!(tokuwhape::group_of(file, shape, 0, &mut list), 2);
    assert_eq!(list[..2], [1, 3]);
    assert_eq!(tokuwhape::group_of(file, shape, 1, &mut list), 0);
    assert_eq!(tokuwhape::group_of(file, shape, 0, &mut list[..2]), 0);
    assert_eq!(tokuwhape::group_of(file, shape, 2, &mut list), 0);
    assert_eq!(tokuwhape::group_of(file, File { head: 65_537, ..shape }, 0, &mut list), 0);
    assert_eq!(tokuwhape::group_of(file, shape, usize::MAX, &mut list), 0);
    assert_eq!(
        (tokuwhape::name_of(file, 3), tokuwhape::name_of(b"A ", 1), tokuwhape::name_of(b"A _b", 1)),
        (&b""[..], &b""[..], &b"_b"[..])
    );
}

#[test]
fn a_ring_file_is_read_first() {
    assert_eq!(RingFile::read(b"A B\n1 2\n"), Err(Refusal::RingFile(6)));
    let file = RingFile::read(b"A Bo C\n1 - 1\n0 0 0\n").unwrap();
    assert_eq!((file.names(), file.lines()), (3, 2));
    assert_eq!((file.name(1), file.name(3)), (Some(&b"Bo"[..]), None));
    assert_eq!((file.group(0), file.group(1), file.group(2)), (Some(vec![1, 3]), Some(vec![]), None));
    let mut ring = file.ring();
    assert_eq!(ring.join(&file.group(0).unwrap()), Ok(1));
    assert_eq!(ring.join(&file.group(1).unwrap()), Ok(2));
    assert_eq!(ring.text(), "1 P(2 3)");
}

/// Seed 1 and four leaves: the circle is 1 3 4 2, and the groups are 2 leaves from its place 4 on and 3 leaves from its place 1 on.
#[test]
fn test_loads() {
    let mut bytes = vec![9; 65_537];
    assert_eq!(tokuwhape::test_load(4, 1, 2, &mut bytes), Ok(24));
    assert_eq!(&bytes[..24], b"1 2 3 4\n1 1 0 0\n1 0 1 1\n");
    assert!(bytes[24..65_536].iter().all(|byte| *byte == 0) && bytes[65_536] == 9);
    assert_eq!(tokuwhape::test_load(256, u32::MAX, 96, &mut bytes), Ok(50_068));
    assert_eq!(RingFile::read(&bytes[..50_068]).map(|file| (file.names(), file.lines())), Ok((256, 96)));
}

/// What a test load is refused for, each with what is checked after it.
#[test]
fn refusals_of_test_loads() {
    let mut bytes = vec![9; 65_536];
    let mut refuses = |n, seed, groups, length: usize, refusal: Refusal| {
        assert_eq!(tokuwhape::test_load(n, seed, groups, &mut bytes[..length]), Err(refusal));
        assert!(bytes.iter().all(|byte| *byte == 9));
    };
    refuses(0, 0, 0, 0, Refusal::RingSize);
    refuses(257, 1, 96, 65_536, Refusal::RingSize);
    refuses(256, 0, 97, 65_535, Refusal::ZeroSeed);
    refuses(256, 1, 97, 65_535, Refusal::GroupCount);
    refuses(256, 1, 0, 65_536, Refusal::GroupCount);
    refuses(1, 1, 1, 65_535, Refusal::ShortTable);
    assert_eq!([Refusal::ZeroSeed, Refusal::GroupCount].map(|refusal| (refusal.number(), refusal.place())), [(16, None), (17, None)]);
    assert_eq!(Refusal::ZeroSeed.to_string(), "the seed of a test load is 0");
    assert_eq!(Refusal::GroupCount.to_string(), "the count of groups of a test load is 0 or above 96");
}

#[test]
fn a_ring_owns_its_tables() {
    let mut ring = Ring::new(5).unwrap();
    assert_eq!(ring.text(), "1 P(2 3 4 5)");
    assert_eq!((ring.join(&[1, 3]), ring.join(&[3, 5])), (Ok(1), Ok(2)));
    assert_eq!(ring.trial(&[1, 5]), Err(Refusal::Impossible));
    assert_eq!(ring.conflict(&[1, 5]), Ok(vec![1, 2]));
    assert_eq!(ring.join(&[2, 4]), Ok(3));
    assert_eq!(ring.order(), [1, 2, 4, 5, 3]);
    assert_eq!((ring.aim(1), ring.aim(4)), (Ok(1), Err(Refusal::NoSuchGroup)));
    let again = Ring::from_text(5, &ring.text()).unwrap();
    assert_eq!((again.leaves(), again.groups(), again.text()), (5, 0, ring.text()));
    assert_eq!(Ring::new(257), Err(Refusal::RingSize));
    assert_eq!(Ring::from_text(5, "1").unwrap_err().to_string(), "the tree text is malformed, at byte 1");
}

#[test]
fn a_rack_owns_its_tables() {
    let mut rack = Rack::new(5).unwrap();
    assert_eq!(rack.text(), "1 P(2 3 4 5 6)");
    assert_eq!((rack.join(&[1, 3]), rack.join(&[3, 5])), (Ok(1), Ok(2)));
    assert_eq!(rack.trial(&[1, 5]), Err(Refusal::Impossible));
    assert_eq!(rack.conflict(&[1, 5]), Ok(vec![1, 2]));
    assert_eq!((rack.join(&[6]), rack.conflict(&[1, 6])), (Err(Refusal::OutsideRing(0)), Err(Refusal::OutsideRing(1))));
    assert_eq!(rack.order(), [1, 3, 5, 2, 4]);
    assert_eq!((rack.join(&[2, 4]), rack.join(&[1, 4])), (Ok(3), Ok(4)));
    assert_eq!(rack.order(), [2, 4, 1, 3, 5]);
    assert_eq!([1, 2, 3, 4, 5].map(|group| rack.aim(group)), [Ok(1), Ok(5), Ok(2), Ok(1), Err(Refusal::NoSuchGroup)]);
    assert_eq!((rack.join(&[2, 5]), rack.conflict(&[2, 5])), (Err(Refusal::Impossible), Ok(vec![1, 2, 3, 4])));
    let again = Rack::from_text(5, &rack.text()).unwrap();
    assert_eq!((again.leaves(), again.groups(), again.text()), (5, 0, rack.text()));
    assert_eq!(Rack::from_text(5, "1 P(2 3 4 5)"), Err(Refusal::TreeText(11)));
}

#[test]
fn sizes_of_racks() {
    assert_eq!([1, 2, 3].map(|n| Rack::new(n).unwrap().text()), ["1 2", "1 P(2 3)", "1 P(2 3 4)"]);
    assert_eq!(Rack::new(255).unwrap().order(), (1..=255).collect::<Vec<_>>());
    assert_eq!([0, 256, 257].map(Rack::new), [Refusal::RingSize, Refusal::RackSize, Refusal::RingSize].map(Err));
    assert_eq!(Rack::from_text(256, "1"), Err(Refusal::RackSize));
    assert_eq!((Refusal::RackSize.number(), Refusal::RackSize.place()), (15, None));
    assert_eq!(Refusal::RackSize.to_string(), "a rack has 256 bins");
}

#[test]
fn groups_with_no_bins() {
    let mut ring = Ring::new(5).unwrap();
    assert_eq!([&[][..], &[1, 3], &[3, 5], &[]].map(|group| ring.join(group)), [Ok(1), Ok(2), Ok(3), Ok(4)]);
    assert_eq!(ring.text(), "1 C(P(2 4) 5 3)");
    assert_eq!((ring.aim(1), ring.aim(2), ring.aim(5)), (Err(Refusal::NoAim), Ok(1), Err(Refusal::NoSuchGroup)));
    assert_eq!((ring.conflict(&[]), ring.conflict(&[1, 5])), (Ok(vec![]), Ok(vec![2, 3])));
    assert_eq!((Refusal::NoAim.number(), Refusal::NoAim.place()), (14, None));
    assert_eq!(Refusal::NoAim.to_string(), "the book's group is empty, so it has no aim");
}

/// Five leaves with one pair joined.
fn with_pair<O: Orders>(pair: [u16; 2]) -> Bins<O> {
    let mut bins = Bins::new(5).unwrap();
    assert_eq!(bins.join(&pair), Ok(1));
    bins
}

/// Checks the intersection of the tree with {1, 3} and of that with {3, 5}.
fn intersected<O: Orders>(text: &str, order: [u16; 5]) {
    let (one, other) = (with_pair::<O>([1, 3]), with_pair([3, 5]));
    let both = one.intersect(&other).unwrap();
    assert_eq!((both.leaves(), both.groups(), both.text().as_str()), (5, 0, text));
    assert_eq!(other.intersect(&one), Ok(both.clone()));
    assert_eq!(both.order(), order);
    assert_eq!(both.intersect(&with_pair([1, 5])), Err(Refusal::Impossible));
    assert_eq!(both.intersect(&Bins::new(6).unwrap()), Err(Refusal::BinCounts));
}

#[test]
fn two_trees_intersect() {
    intersected::<Circular>("1 C(P(2 4) 5 3)", [1, 2, 4, 5, 3]);
    intersected::<Straight>("1 C(P(2 4 6) 5 3)", [1, 3, 5, 2, 4]);
    assert_eq!((Refusal::BinCounts.number(), Refusal::BinCounts.place()), (13, None));
}

/// A ring and a rack have none, with as many leaves or with as many in their trees.
#[test]
fn a_ring_and_a_rack_do_not_intersect() {
    let (mut nodes, mut third) = (vec![Node::UNUSED; 256], vec![Node::UNUSED; 256]);
    assert_eq!(tokuwhape::open(Layout::Rack, 5, &mut nodes, &mut [0; 384]), Ok(0));
    for n in [5, 6] {
        let answers = [
            tokuwhape::intersect(Layout::Rack, 5, &nodes, Layout::Ring, n, &nodes, &mut third),
            tokuwhape::intersect(Layout::Ring, n, &nodes, Layout::Rack, 5, &nodes, &mut third),
        ];
        assert_eq!(answers, [Err(Refusal::BinCounts); 2]);
    }
    assert_eq!(tokuwhape::intersect(Layout::Rack, 5, &nodes, Layout::Rack, 5, &nodes, &mut third), Ok(0));
    assert!(third == nodes);
}
