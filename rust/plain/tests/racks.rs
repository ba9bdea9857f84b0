//! Racks: marked ones, and their refusals.

mod common;

use common::{refused, Bins, PAST};
use plain::Layout::{Rack, Ring};
use plain::{aim, conflict, intersect, join, open, order, read, trial, write};

/// The tree of a rack is that of a ring of one bin more.
#[test]
fn fresh_racks() {
    assert_eq!(Bins::new(Rack, 1).text(), "1 2");
    assert_eq!(Bins::new(Rack, 2).text(), "1 P(2 3)");
    assert_eq!(Bins::new(Rack, 3).text(), "1 P(2 3 4)");
    assert_eq!(Bins::new(Rack, 1).order(), [1]);
    assert_eq!(Bins::new(Rack, 5).order(), [1, 2, 3, 4, 5]);
}

/// Groups that a ring keeps: on a rack the last one would be a run only past the ends.
#[test]
fn a_rack_of_four() {
    let mut rack = Bins::with(Rack, 4, &[&[1, 2], &[3, 4], &[2, 3]]);
    assert_eq!(rack.text(), "1 C(2 3 4 5)");
    assert_eq!(rack.join(&[1, 4]), refused(8, 0));
    assert_eq!(rack.conflict(&[1, 4]), [1, 2, 3]);
    assert_eq!(rack.order(), [1, 2, 3, 4]);
    assert_eq!(Bins::with(Ring, 4, &[&[1, 2], &[3, 4], &[2, 3], &[1, 4]]).text(), "1 C(2 3 4)");
}

/// The order is read from the hidden end bin and not from bin 1, and of two middle places the even one is aimed at.
#[test]
fn a_rack_of_five() {
    let mut rack = Bins::with(Rack, 5, &[&[1, 3], &[3, 5]]);
    assert_eq!(rack.text(), "1 C(P(2 4 6) 5 3)");
    assert_eq!(rack.order(), [1, 3, 5, 2, 4]);
    assert_eq!([rack.aim(1), rack.aim(2)], [Ok(1), Ok(5)]);
    assert_eq!(rack.join(&[1, 5]), refused(8, 0));
    assert_eq!(rack.conflict(&[1, 5]), [1, 2]);
    assert_eq!(rack.join(&[2, 4]), Ok(3));
    assert_eq!(rack.join(&[1, 2, 3, 5]), Ok(4));
    assert_eq!(rack.text(), "1 C(C(2 4 6) 5 3)");
    assert_eq!(rack.order(), [1, 3, 5, 2, 4]);
    assert_eq!([1, 2, 3, 4].map(|group| rack.aim(group)), [Ok(1), Ok(5), Ok(4), Ok(5)]);
}

/// A group of all bins but one changes a rack's tree; of all bins it changes none.
#[test]
fn all_bins_but_one() {
    let mut rack = Bins::new(Rack, 3);
    assert_eq!(rack.join(&[1, 2, 3]), Ok(1));
    assert_eq!(rack.text(), "1 P(2 3 4)");
    assert_eq!(rack.join(&[1, 3]), Ok(2));
    assert_eq!(rack.text(), "1 P(P(2 4) 3)");
    assert_eq!(rack.order(), [1, 3, 2]);
}

#[test]
fn the_largest_rack() {
    let whole: Vec<u16> = (1..=255).collect();
    let mut rack = Bins::new(Rack, 255);
    for count in 1..=96 {
        assert_eq!(rack.join(&whole), Ok(count));
    }
    assert_eq!(rack.join(&whole), refused(7, 0));
    assert_eq!(rack.aim(96), Ok(128));
    assert_eq!(rack.order(), whole);
}

/// A rack of 256 bins is refused before any table is looked at; 0 and 257 bins are no rack's as they are no ring's.
#[test]
fn sizes() {
    for (n, number) in [(0, 1), (256, 15), (257, 1), (usize::MAX, 1)] {
        let answers = [
            open(Rack, n, &mut [], &mut []),
            join(Rack, n, &mut [], &mut [], 97, &[0]),
            trial(Rack, n, &[], &[], 97, &[0]),
            order(Rack, n, &[], &mut []),
            aim(Rack, n, &[], &[], 97, 0),
            conflict(Rack, n, &[], 97, &[0], &mut []),
            write(Rack, n, &[], &mut []),
            read(Rack, n, &mut [], &mut [], b""),
            intersect(Rack, n, &[], Ring, 5, &[], &mut []),
            intersect(Ring, 5, &[], Rack, n, &[], &mut []),
        ];
        assert_eq!(answers, [refused(number, 0); 10]);
    }
    assert_eq!(intersect(Rack, 256, &[], Ring, 257, &[], &mut []), refused(1, 0));
}

/// The order has a place for each bin, and none for the hidden one.
#[test]
fn places() {
    let rack = Bins::new(Rack, 5);
    let mut places = [777; 5];
    assert_eq!(order(Rack, 5, &rack.nodes, &mut places[..4]), refused(2, 0));
    assert_eq!(places, [777; 5]);
    assert_eq!(order(Rack, 5, &rack.nodes, &mut places), Ok(5));
    assert_eq!(places, [1, 2, 3, 4, 5]);
}

/// No list and no book names the hidden end bin, and a rack's table is no ring's of as many bins.
#[test]
fn the_hidden_bin() {
    let mut rack = Bins::with(Rack, 5, &[&[1, 3]]);
    assert_eq!(rack.join(&[2, 6]), refused(5, 1));
    assert_eq!(conflict(Rack, 5, &rack.book, 1, &[6], &mut [0; 96]), refused(5, 0));
    assert_eq!(trial(Ring, 5, &rack.nodes, &rack.book, 1, &[2]), refused(3, 0));
    assert_eq!(trial(Ring, 6, &rack.nodes, &rack.book, 1, &[2]), Ok(2));
    rack.book[0] |= 32;
    assert_eq!(trial(Rack, 5, &rack.nodes, &rack.book, 1, &[2]), refused(3, 0));
    assert_eq!(aim(Rack, 5, &rack.nodes, &rack.book, 1, 1), refused(3, 0));
    assert_eq!(conflict(Rack, 5, &rack.book, 1, &[2], &mut [0; 96]), refused(3, 0));
    assert_eq!(trial(Ring, 6, &rack.nodes, &rack.book, 1, &[2]), Ok(2));
}

/// A rack and a ring have no intersection, even if both have as many bins, or as many leaves.
#[test]
fn a_rack_and_a_ring() {
    let rack = Bins::new(Rack, 5);
    for n in [5, 6] {
        let (ring, mut third) = (Bins::new(Ring, n), [PAST; 256]);
        assert_eq!(intersect(Rack, 5, &rack.nodes, Ring, n, &ring.nodes, &mut third), refused(13, 0));
        assert_eq!(intersect(Ring, n, &ring.nodes, Rack, 5, &rack.nodes, &mut third), refused(13, 0));
        assert!(third == [PAST; 256]);
    }
    assert_eq!(rack.intersect(&Bins::new(Rack, 4)), refused(13, 0));
    assert_eq!(rack.intersect(&rack).map(|both| both.text()), Ok(rack.text()));
}
