//! Every refusal, and the sequence of the checks.

mod common;

use common::{refused, Bins, PAST, UNUSED};
use plain::Layout::Ring;
use plain::{aim, conflict, join, open, order, read, scan, trial, write, Node};

#[test]
fn bins_and_lengths() {
    let ring = Bins::new(Ring, 5);
    let (mut nodes, mut book) = (ring.nodes.clone(), ring.book.clone());
    for n in [0, 257, usize::MAX] {
        assert_eq!(open(Ring, n, &mut [], &mut []), refused(1, 0));
        assert_eq!(join(Ring, n, &mut [], &mut [], 0, &[]), refused(1, 0));
        assert_eq!(trial(Ring, n, &[], &[], 0, &[]), refused(1, 0));
        assert_eq!(order(Ring, n, &[], &mut []), refused(1, 0));
        assert_eq!(aim(Ring, n, &[], &[], 0, 0), refused(1, 0));
        assert_eq!(conflict(Ring, n, &[], 0, &[], &mut []), refused(1, 0));
        assert_eq!(write(Ring, n, &[], &mut []), refused(1, 0));
        assert_eq!(read(Ring, n, &mut [], &mut [], b""), refused(1, 0));
    }
    assert_eq!(open(Ring, 5, &mut nodes[..255], &mut book), refused(2, 0));
    assert_eq!(open(Ring, 5, &mut nodes, &mut book[..383]), refused(2, 0));
    assert_eq!(join(Ring, 5, &mut nodes, &mut book[..383], 97, &[]), refused(2, 0));
    assert_eq!(trial(Ring, 5, &nodes[..255], &book, 97, &[]), refused(2, 0));
    assert_eq!(order(Ring, 5, &nodes, &mut [0; 4]), refused(2, 0));
    assert_eq!(aim(Ring, 5, &nodes, &book[..383], 97, 0), refused(2, 0));
    assert_eq!(conflict(Ring, 5, &book, 97, &[], &mut [0; 95]), refused(2, 0));
    assert_eq!(write(Ring, 5, &nodes, &mut [0; 2047]), refused(2, 0));
    assert_eq!(read(Ring, 5, &mut nodes, &mut book[..383], b""), refused(2, 0));
    assert!(nodes == ring.nodes && book == ring.book);
}

/// Checks that each call with a node table refuses this one with 3.
fn table_refused(n: usize, nodes: &[Node]) {
    let book = [0; 384];
    assert_eq!(trial(Ring, n, nodes, &book, 0, &[]), refused(3, 0));
    assert_eq!(join(Ring, n, &mut nodes.to_vec(), &mut book.clone(), 0, &[1]), refused(3, 0));
    assert_eq!(order(Ring, n, nodes, &mut [0; 256]), refused(3, 0));
    assert_eq!(aim(Ring, n, nodes, &book, 0, 1), refused(3, 0));
    assert_eq!(write(Ring, n, nodes, &mut [0; 2048]), refused(3, 0));
}

#[test]
fn node_tables_not_in_form() {
    let ring = Bins::with(Ring, 5, &[&[1, 3], &[3, 5]]);
    type Change = (usize, fn(&mut Node));
    let changes: [Change; 16] = [
        (0, |record| record.kind = 0),
        (0, |record| record.kind = 3),
        (0, |record| record.kind = 258),
        (0, |record| record.count = 2),
        (0, |record| record.count = 4),
        (0, |record| record.count = u16::MAX),
        (0, |record| record.items.swap(0, 2)),
        (0, |record| record.items[0] = 256),
        (0, |record| record.items[0] = 258),
        (0, |record| record.items[1] = 6),
        (0, |record| record.items[1] = 3),
        (0, |record| record.items[254] = 1),
        (1, |record| record.kind = 2),
        (1, |record| record.items.swap(0, 1)),
        (1, |record| *record = UNUSED),
        (255, |record| record.items[254] = 1),
    ];
    for (record, change) in changes {
        let mut nodes = ring.nodes.clone();
        change(&mut nodes[record]);
        table_refused(5, &nodes);
    }
    table_refused(4, &ring.nodes);
    table_refused(6, &ring.nodes);
    table_refused(1, &ring.nodes);
    table_refused(2, &[PAST; 256]);
    assert_eq!(order(Ring, 2, &[UNUSED; 256], &mut [0; 2]), Ok(2));
}

#[test]
fn books_not_in_form() {
    let ring = Bins::with(Ring, 5, &[&[1, 3], &[3, 5]]);
    let refuses = |book: &[u64], count: usize| {
        assert_eq!(trial(Ring, 5, &ring.nodes, book, count, &[]), refused(3, 0));
        assert_eq!(join(Ring, 5, &mut ring.nodes.clone(), &mut book.to_vec(), count, &[]), refused(3, 0));
        assert_eq!(aim(Ring, 5, &ring.nodes, book, count, 0), refused(3, 0));
        assert_eq!(conflict(Ring, 5, book, count, &[], &mut [0; 96]), refused(3, 0));
    };
    for count in [0, 1, 97, usize::MAX] {
        refuses(&ring.book, count);
    }
    for (word, mark) in [(0, 32), (1, 1), (383, 1 << 63)] {
        let mut book = ring.book.clone();
        book[word] |= mark;
        refuses(&book, 2);
    }
}

/// A group without marks is in form wherever it stands.
#[test]
fn books_with_empty_groups() {
    let ring = Bins::with(Ring, 5, &[&[], &[1, 3], &[], &[3, 5], &[]]);
    assert_eq!(ring.count, 5);
    assert_eq!(ring.text(), Bins::with(Ring, 5, &[&[1, 3], &[3, 5]]).text());
    for count in [4, 6, 95] {
        assert_eq!(trial(Ring, 5, &ring.nodes, &ring.book, count, &[2, 4]), Ok(count + 1));
        assert_eq!(conflict(Ring, 5, &ring.book, count, &[1, 5], &mut [0; 96]), Ok(2));
        assert_eq!(aim(Ring, 5, &ring.nodes, &ring.book, count, 4), Ok(3));
    }
    assert_eq!(trial(Ring, 5, &ring.nodes, &ring.book, 96, &[2, 4]), refused(7, 0));
    assert_eq!(ring.conflict(&[1, 5]), [2, 4]);
}

/// The list of an empty group is empty where the book is possible, and no list names an empty group.
#[test]
fn conflicts_of_an_empty_group() {
    let mut ring = Bins::with(Ring, 5, &[&[], &[1, 3], &[], &[3, 5]]);
    assert_eq!(ring.conflict(&[]), []);
    ring.book[16..20].copy_from_slice(&[0b10001, 0, 0, 0]);
    ring.count = 6;
    assert_eq!(ring.conflict(&[]), [2, 4, 5]);
}

#[test]
fn lists() {
    let mut ring = Bins::new(Ring, 5);
    assert_eq!(ring.join(&[]), Ok(1));
    assert_eq!(ring.join(&[1, 0, 1]), refused(5, 1));
    assert_eq!(ring.join(&[2, 3, 6]), refused(5, 2));
    assert_eq!(ring.join(&[2, 3, 2, 6]), refused(6, 2));
    assert_eq!(ring.join(&[1, 2, 3, 4, 5, 1]), refused(6, 5));
    let mut places = [777; 96];
    assert_eq!(conflict(Ring, 5, &ring.book, 0, &[6], &mut places), refused(5, 0));
    assert_eq!(conflict(Ring, 5, &ring.book, 0, &[3, 3], &mut places), refused(6, 1));
    assert_eq!(places, [777; 96]);
    assert_eq!(conflict(Ring, 5, &ring.book, 0, &[], &mut places), Ok(0));
    assert_eq!(places, [0; 96]);
}

#[test]
fn full_book_before_impossible() {
    let mut ring = Bins::with(Ring, 5, &[&[1, 3], &[3, 5]]);
    for _ in 2..96 {
        ring.join(&[1]).unwrap();
    }
    assert_eq!(ring.join(&[1, 5]), refused(7, 0));
    assert_eq!(ring.join(&[]), refused(7, 0));
    assert_eq!(ring.join(&[1, 1]), refused(6, 1));
}

#[test]
fn aims() {
    let ring = Bins::with(Ring, 5, &[&[1, 3], &[1, 2, 3, 4, 5]]);
    assert_eq!(ring.aim(0), refused(9, 0));
    assert_eq!(ring.aim(3), refused(9, 0));
    assert_eq!(ring.aim(1), Ok(1));
    assert_eq!(ring.aim(2), Ok(4));
    let fresh = Bins::new(Ring, 5);
    assert_eq!(aim(Ring, 5, &fresh.nodes, &ring.book, 2, 1), refused(10, 0));
    assert_eq!(aim(Ring, 5, &fresh.nodes, &ring.book, 2, 2), Ok(3));
    assert_eq!(aim(Ring, 5, &fresh.nodes, &ring.book, 3, 3), refused(14, 0));
    assert_eq!(aim(Ring, 5, &fresh.nodes, &ring.book, 3, 4), refused(9, 0));
    assert_eq!(aim(Ring, 5, &fresh.nodes, &[0; 383], 1, 1), refused(2, 0));
    assert_eq!(aim(Ring, 5, &[PAST; 256], &[0; 384], 1, 1), refused(3, 0));
}

#[test]
fn texts() {
    let cases: [(usize, &str, usize); 24] = [
        (1, "", 0),
        (1, "1 2", 1),
        (2, "1 P(2)", 2),
        (3, "1 2 3", 2),
        (3, "1 P(2 3", 7),
        (3, "1 P(2 3)\n", 8),
        (3, "1 P(P(2 3)", 4),
        (3, "1 P(02 3)", 4),
        (3, "1 P(1 3)", 4),
        (3, "1 P(2 2)", 6),
        (3, "1 P(2 3 ", 7),
        (3, "1 P 2 3)", 3),
        (4, "1 P(2 3)", 7),
        (4, "1 P(2)", 5),
        (4, "1 C(P(2 3) 4)x", 13),
        (5, "1 P(P(2 3 4 5))", 11),
        (12, "1 P(1 2)", 5),
        (12, "1 P(10 13)", 8),
        (3, "1 P(3 2)", 6),
        (3, "1 C(3 2)", 4),
        (5, "1 C(C(5 3) P(4 2))", 4),
        (5, "1 P(C(5 3) C(4 2))", 6),
        (6, "1 P(2 C(3 4) P(6 5))", 17),
        (6, "1 P(3 C(2 4) P(6 5))", 6),
    ];
    for (n, text, byte) in cases {
        let mut ring = Bins::with(Ring, 5, &[&[1, 3]]);
        let before = ring.clone();
        assert_eq!(read(Ring, n, &mut ring.nodes, &mut ring.book, text.as_bytes()), refused(12, byte), "{text}");
        assert!(ring == before);
    }
}

#[test]
fn ring_files() {
    let cases: [(&str, usize); 16] = [
        ("", 0),
        ("A", 1),
        ("\n", 0),
        (" A\n", 0),
        ("A  B\n", 2),
        ("A \n", 2),
        ("A A\n", 3),
        ("A A B\n", 3),
        ("ABCDEFGHI\n", 8),
        ("ABCDEFGH ABCDEFGH\n", 16),
        ("A B\r\n", 3),
        ("A B\n1 2\n", 6),
        ("A B\n1\n", 5),
        ("A B\n1 0 \n", 7),
        ("A B\n1 0", 7),
        ("A B\n1 0\n\n", 8),
    ];
    for (file, byte) in cases {
        assert_eq!(scan(file.as_bytes()), refused(11, byte), "{file:?}");
        let listed = format!("error 11 at byte {byte}\n");
        assert_eq!(plain::list_file(file.as_bytes()), listed.as_bytes());
    }
    assert_eq!(scan(&[b'\n'; 65_537]), refused(11, 65_536));
}

#[test]
fn names_used_up() {
    let letters = (b'A'..=b'Z').chain(b'a'..=b'z').chain(b'0'..=b'9').map(char::from);
    let longer: String = letters.map(|letter| format!("aaaaaaa{letter} ")).collect();
    let line = format!("{longer}aaaaaaa ");
    assert_eq!(scan(format!("{line}aaaaaab\n").as_bytes()).unwrap().names, 64);
    assert_eq!(scan(format!("{line}aaaaaaa").as_bytes()), refused(11, line.len() + 6));
    assert_eq!(scan(format!("{longer}aaaaaaa\n").as_bytes()).unwrap().names, 63);
}

#[test]
fn names_to_256() {
    let line: Vec<String> = (0..257).map(|k| k.to_string()).collect();
    let whole = line[..256].join(" ") + "\n";
    assert_eq!(scan(whole.as_bytes()).unwrap().names, 256);
    let longer = line.join(" ") + "\n";
    assert_eq!(scan(longer.as_bytes()), refused(11, whole.len() - 1));
}
