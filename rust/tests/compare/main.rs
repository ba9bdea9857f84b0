//! The proved planner and the independent one of crate `plain`, side by side on random rings and racks, lists, tables, texts, pairs of trees, files
//! and test loads. A case is one call whose answer and every lent table, whole, is compared.
mod brute;
mod damage;
mod damaged;
mod draw;
mod files;
mod load;
mod pairs;
mod rings;
mod tables;
mod texts;

use draw::Draw;
use rings::Grown;
use tables::{Call, Sides, Tally};
use tokuwhape as planner;
use tokuwhape::Layout::{self, Rack, Ring};

/// A refusal's number, and the place or byte it names, 0 where none.
fn told(refusal: planner::Refusal) -> (u8, usize) {
    (refusal.number(), refusal.place().unwrap_or(0))
}

/// The answers that each call can give on a rack: 0 for done, else the refusal's number.
const ANSWERS: [(&str, &[u8]); 9] = [
    ("open", &[0, 1, 2, 15]),
    ("join", &[0, 1, 2, 3, 5, 6, 7, 8, 15]),
    ("trial", &[0, 1, 2, 3, 5, 6, 7, 8, 15]),
    ("order", &[0, 1, 2, 3, 15]),
    ("aim", &[0, 1, 2, 3, 9, 10, 14, 15]),
    ("conflict", &[0, 1, 2, 3, 5, 6, 15]),
    ("write", &[0, 1, 2, 3, 15]),
    ("read", &[0, 1, 2, 12, 15]),
    ("intersect", &[0, 1, 2, 3, 8, 13, 15]),
];

/// Grows rings and racks, and keeps some of them.
fn grown(tally: &mut Tally, draw: &mut Draw) -> Vec<Grown> {
    let mut kept = Vec::new();
    for round in 0..1_000 {
        let size = draw.size();
        let steps = draw.pick(&[0, 2, 5, 10, 20, 110]);
        let grown = rings::grow(tally, draw, size, steps, if size.n > 64 { 20 } else { 4 });
        if round % 8 == 0 {
            kept.push(grown);
        }
    }
    kept
}

/// Calls on the kept tables, damaged.
fn damaged(tally: &mut Tally, draw: &mut Draw, kept: &[Grown]) {
    for _ in 0..30_000 {
        let (grown, other) = (&kept[draw.below(kept.len())], &kept[draw.below(kept.len())]);
        rings::damaged(tally, draw, grown, other);
    }
}

/// Conflict calls, most on few leaves.
fn conflicts(tally: &mut Tally, draw: &mut Draw) {
    for _ in 0..12_000 {
        let (n, count) = (3 + draw.below(8), draw.pick(&[3, 8, 30, 96]));
        let (size, count) = (draw.laid(n), draw.below(count + 1));
        rings::conflict(tally, draw, size, count);
    }
    for _ in 0..400 {
        let n = draw.pick(&[30, 64, 65, 200, 255, 256]);
        let (size, count) = (draw.laid(n), draw.below(97));
        rings::conflict(tally, draw, size, count);
    }
}

/// Texts, of the kept trees and drawn.
fn texts(tally: &mut Tally, draw: &mut Draw, kept: &mut [Grown]) {
    for _ in 0..8_000 {
        let at = draw.below(kept.len());
        let Grown { size, sides, .. } = &mut kept[at];
        sides.refill(size.n, 96, 2048, 0);
        if let Ok(length) = sides.call(tally, *size, Call::Write) {
            let text = sides.text(length);
            let mut copy = sides.clone();
            texts::changed(tally, draw, &mut copy, *size, &text);
        }
    }
    let mut sides = Sides::new(vec![tokuwhape::Node::UNUSED; 257], vec![0; 385]);
    for _ in 0..12_000 {
        let size = draw.size();
        texts::of_the_shape(tally, draw, &mut sides, size);
        texts::random(tally, draw, &mut sides, size);
    }
}

/// Lists and texts far longer than any that is accepted.
fn long(tally: &mut Tally, draw: &mut Draw, kept: &mut [Grown]) {
    for Grown { size, count, sides, .. } in kept.iter_mut().take(20) {
        let leaves = draw.leaves(size.n);
        for length in [1_000, 100_000] {
            let lists = [vec![1; length], vec![0; length], leaves.iter().copied().cycle().take(length).collect()];
            for list in lists {
                for call in [Call::Join(*count, &list), Call::Trial(*count, &list), Call::Conflict(*count, &list)] {
                    assert!(sides.call(tally, *size, call).is_err());
                }
            }
            for part in ["1", " ", "1 ", "P(", "1 P(", "2 3 ", "(", ")"] {
                let text = ["1 P(2 ", part].concat().into_bytes();
                for text in [part.repeat(length).into_bytes(), [&text[..], &part.repeat(length).into_bytes()].concat()] {
                    assert!(sides.call(tally, *size, Call::Read(&text)).is_err());
                }
            }
        }
    }
}

/// Intersections of pairs of trees.
fn intersections(tally: &mut Tally, draw: &mut Draw) {
    for _ in 0..15_000 {
        pairs::any(tally, draw);
    }
}

/// Ring files.
fn files(tally: &mut Tally, draw: &mut Draw) {
    for _ in 0..20_000 {
        files::any(tally, draw);
    }
    files::long(tally, draw);
}

/// Test loads.
fn loads(tally: &mut Tally, draw: &mut Draw) {
    for _ in 0..4_000 {
        load::any(tally, draw);
    }
    load::joined(tally, draw);
}

/// Checks that a call gave each of these answers, and no other. Returns how often it was made.
fn checked(tally: &Tally, call: &str, layout: Layout, answers: &[u8]) -> usize {
    let given = tally.given(call, layout);
    println!("{call}, {layout:?}: {given:?}");
    assert!(given.keys().eq(answers), "{call}, {layout:?}: gave {given:?}, not {answers:?}");
    given.values().sum()
}

/// The generator's seed: that of the environment's COMPARE_SEED, which is not 0, or a fixed one.
fn seed() -> u64 {
    std::env::var("COMPARE_SEED").map_or(0x9e37_79b9_7f4a_7c15, |seed| seed.parse().expect("COMPARE_SEED is a number"))
}

#[test]
fn both_planners_answer_alike() {
    let (mut tally, mut draw) = (Tally::default(), Draw::new(seed()));
    let mut kept = grown(&mut tally, &mut draw);
    damaged(&mut tally, &mut draw, &kept);
    conflicts(&mut tally, &mut draw);
    texts(&mut tally, &mut draw, &mut kept);
    long(&mut tally, &mut draw, &mut kept);
    intersections(&mut tally, &mut draw);
    files(&mut tally, &mut draw);
    loads(&mut tally, &mut draw);
    let mut cases = checked(&tally, "scan", Ring, &[0, 11]) + checked(&tally, "test load", Ring, &[0, 1, 2, 16, 17]);
    for (call, answers) in ANSWERS {
        cases += checked(&tally, call, Rack, answers);
        // a ring has no 15, but it may meet a rack that has
        let on_ring = if call == "intersect" { answers } else { &answers[..answers.len() - 1] };
        cases += checked(&tally, call, Ring, on_ring);
    }
    println!("{cases} cases, and {} names and {} groups of files", tally.made("name"), tally.made("group"));
    assert!(cases >= 100_000, "only {cases} cases");
    let threes = tally.made("three neighbours");
    println!("{threes} texts with a C-node that has three neighbours");
    assert!(threes >= 1_000, "only {threes} such texts");
}
