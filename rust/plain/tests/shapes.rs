//! The byte of a malformed tree text, against all texts of the shape for small rings, and what is written of a text.

mod common;

use common::shapes::{shapes, threes_named};
use common::{refused, Bins, Random};
use plain::Layout::Ring;
use std::collections::HashSet;

#[test]
fn bytes_against_all_shapes() {
    let mut random = Random(6);
    for n in 3..=5 {
        let texts = shapes(n);
        let whole: HashSet<&[u8]> = texts.iter().map(|text| text.as_bytes()).collect();
        let prefixes: HashSet<&[u8]> = whole.iter().flat_map(|text| (0..=text.len()).map(|len| &text[..len])).collect();
        let mut ring = Bins::new(Ring, usize::from(n));
        for _ in 0..20_000 {
            let mut text = texts[random.below(texts.len())].clone().into_bytes();
            for _ in 0..1 + random.below(3) {
                let (place, byte) = (random.below(text.len()), b" ()0123456PC\n"[random.below(13)]);
                match random.below(4) {
                    0 => text[place] = byte,
                    1 => text.insert(place, byte),
                    2 => text.push(byte),
                    _ => text.truncate(place + 1),
                }
            }
            if whole.contains(&text[..]) {
                continue;
            }
            let byte = (0..text.len()).find(|&place| !prefixes.contains(&text[..=place])).unwrap_or(text.len());
            let answer = plain::read(Ring, usize::from(n), &mut ring.nodes, &mut ring.book, &text);
            assert_eq!(answer, refused(12, byte), "{}", String::from_utf8_lossy(&text));
        }
    }
}

/// One text is written for each tree: with 5 bins 13 of one node, 40 of two and 15 of three. Accepted are also those with
/// a `C` for a node with two items, in its sequence.
#[test]
fn one_text_a_tree() {
    for n in 3..=5 {
        let mut accepted = 0;
        let mut written = HashSet::new();
        for text in shapes(n) {
            let Some(ring) = Bins::of_text(Ring, usize::from(n), &text) else { continue };
            accepted += 1;
            assert_eq!(ring.text(), threes_named(&text));
            written.insert(ring.text());
        }
        assert_eq!((accepted, written.len()), [(2, 1), (16, 7), (213, 68)][usize::from(n) - 3]);
    }
}

/// A node with three neighbours is a P-node, also where a text names it C.
#[test]
fn three_neighbours() {
    let cases: [(usize, &str, &str); 5] = [
        (3, "1 C(2 3)", "1 P(2 3)"),
        (4, "1 C(2 C(3 4))", "1 P(2 P(3 4))"),
        (5, "1 C(C(2 3) 4 5)", "1 C(P(2 3) 4 5)"),
        (5, "1 C(C(3 2 4) 5)", "1 P(C(3 2 4) 5)"),
        (6, "1 P(2 C(3 5) P(4 6))", "1 P(2 P(3 5) P(4 6))"),
    ];
    for (n, text, written) in cases {
        let ring = Bins::of_text(Ring, n, text).unwrap();
        assert_eq!(ring.text(), written);
        assert!(ring.nodes == Bins::of_text(Ring, n, written).unwrap().nodes);
    }
    let mut ring = Bins::new(Ring, 3);
    for (text, byte) in [("1 C(3 2)", 4), ("1 P(3 2)", 6)] {
        assert_eq!(plain::read(Ring, 3, &mut ring.nodes, &mut ring.book, text.as_bytes()), refused(12, byte));
    }
}
