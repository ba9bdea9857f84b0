//! The marked circles of document 01.

mod common;

use common::{refused, Bins};
use plain::Layout::Ring;

#[test]
fn fresh_rings() {
    assert_eq!(Bins::new(Ring, 1).text(), "1");
    assert_eq!(Bins::new(Ring, 2).text(), "1 2");
    assert_eq!(Bins::new(Ring, 3).text(), "1 P(2 3)");
}

#[test]
fn circles_d_to_g() {
    let mut ring = Bins::with(Ring, 5, &[&[1, 3]]);
    assert_eq!(ring.text(), "1 P(P(2 4 5) 3)");
    assert_eq!(ring.join(&[3, 5]), Ok(2));
    assert_eq!(ring.text(), "1 C(P(2 4) 5 3)");
    assert_eq!(ring.order(), [1, 2, 4, 5, 3]);
    assert_eq!(ring.aim(1), Ok(1));
    assert_eq!(ring.aim(2), Ok(3));
    assert_eq!(ring.join(&[1, 5]), refused(8, 0));
    assert_eq!(ring.conflict(&[1, 5]), [1, 2]);
    assert_eq!(ring.conflict(&[2, 4]), []);
    assert_eq!(ring.join(&[2, 4]), Ok(3));
    assert_eq!(ring.text(), "1 C(P(2 4) 5 3)");
}

#[test]
fn circles_h_and_i() {
    let ring = Bins::with(Ring, 4, &[&[1, 2], &[3, 4], &[2, 3], &[1, 4]]);
    assert_eq!(ring.text(), "1 C(2 3 4)");
    let mut ring = Bins::with(Ring, 5, &[&[1, 2], &[3, 4], &[2, 3]]);
    assert_eq!(ring.join(&[1, 4]), refused(8, 0));
    assert_eq!(ring.conflict(&[1, 4]), [1, 2, 3]);
}

#[test]
fn circles_j_to_l() {
    assert_eq!(Bins::with(Ring, 6, &[&[1, 2], &[3, 4], &[2, 3]]).text(), "1 C(2 3 4 P(5 6))");
    let ring = Bins::with(Ring, 6, &[&[2, 4], &[2, 5]]);
    assert_eq!(ring.text(), "1 P(3 C(4 2 5) 6)");
    assert_eq!(ring.order(), [1, 3, 4, 2, 5, 6]);
    assert_eq!(Bins::with(Ring, 5, &[&[2, 3, 4, 5]]).text(), "1 P(2 3 4 5)");
}

#[test]
fn largest_ring_and_full_book() {
    let whole: Vec<u16> = (1..=256).collect();
    let mut ring = Bins::new(Ring, 256);
    for count in 1..=96 {
        assert_eq!(ring.join(&whole), Ok(count));
    }
    assert_eq!(ring.join(&whole), refused(7, 0));
    assert_eq!(ring.aim(96), Ok(129));
    assert_eq!(ring.order(), whole);
}

#[test]
fn node_table_of_circle_e() {
    let ring = Bins::with(Ring, 5, &[&[1, 3], &[3, 5]]);
    let [first, second] = [&ring.nodes[0], &ring.nodes[1]];
    assert_eq!((first.kind, first.count, &first.items[..4]), (2, 3, &[257, 5, 3, 0][..]));
    assert_eq!((second.kind, second.count, &second.items[..3]), (1, 2, &[2, 4, 0][..]));
    assert!(ring.nodes[2..256].iter().all(|record| *record == common::UNUSED));
}

#[test]
fn sample_file() {
    let file = b"A B C D E\n1 0 1 0 0\n0 0 1 0 1\n1 0 0 0 1\n0 1 0 1 0\n";
    let listed = "line answer aim conflict\n1 kept A -\n2 kept C -\n3 refused - 1,2\n4 kept D -\n\
                  order\nA B D E C\ntree\n1 C(P(2 4) 5 3)\n";
    assert_eq!(String::from_utf8(plain::list_file(file)).unwrap(), listed);
    let scanned = plain::scan(file).unwrap();
    assert_eq!(scanned, plain::File { names: 5, head: 10, lines: 4 });
    assert_eq!(plain::name_of(file, 4), b"E");
    let mut list = [0; 5];
    assert_eq!(plain::group_of(file, 5, 10, 1, &mut list), 2);
    assert_eq!(list[..2], [3, 5]);
    assert_eq!(plain::group_of(file, 5, 10, 1, &mut list[..4]), 0);
}

/// A line with no bins is kept without an aim and takes a place of the book.
#[test]
fn lines_with_no_bins() {
    let list =
        |lines: usize| String::from_utf8(plain::list_file(&[b"A B\n", &b"0 -\n".repeat(lines)[..]].concat())).unwrap();
    assert_eq!(list(1), "line answer aim conflict\n1 kept - -\norder\nA B\ntree\n1 2\n");
    let listed = list(97);
    assert!(listed.contains("\n96 kept - -\n97 full - -\norder\n"));
}
