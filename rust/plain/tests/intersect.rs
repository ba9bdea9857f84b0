//! The intersection of two trees, against all orders of few bins and against joining for many.

mod common;

use common::orders::allowed;
use common::shapes::{shapes, threes_named};
use common::{refused, Bins, Random, PAST, UNUSED};
use plain::Layout::{self, Rack, Ring};
use plain::Node;

/// A ring or a rack and the orders that it allows.
struct Listed(Bins, Vec<Vec<u16>>);

/// Returns a ring for each tree of so many leaves, at least 3, or a rack, which has a bin less.
fn trees(layout: Layout, leaves: u16) -> Vec<Listed> {
    let n = usize::from(leaves) - usize::from(layout == Rack);
    let texts = shapes(leaves).into_iter().filter(|text| *text == threes_named(text));
    let planned = texts.filter_map(|text| Bins::of_text(layout, n, &text));
    let listed = |bins| {
        let orders = allowed(&bins);
        Listed(bins, orders)
    };
    planned.map(listed).collect()
}

/// Checks the intersection of two trees against their orders; returns whether there is one.
fn check(Listed(one, left): &Listed, Listed(other, right): &Listed) -> bool {
    let common: Vec<_> = left.iter().filter(|order| right.binary_search(order).is_ok()).cloned().collect();
    let both = match one.intersect(other) {
        Err(refused) => {
            assert!(refused.number == 8 && refused.place == 0 && common.is_empty());
            return false;
        }
        Ok(both) => both,
    };
    // Its table is in form: its text is written and read again.
    both.text();
    assert_eq!(allowed(&both), common, "{} and {}", one.text(), other.text());
    true
}

/// With 4 leaves, 12 of the 49 pairs have no order in common.
#[test]
fn all_pairs_of_small_trees() {
    for (layout, leaves, possible) in [(Ring, 3, 1), (Ring, 4, 37), (Rack, 3, 1), (Rack, 4, 37)] {
        let trees = trees(layout, leaves);
        let done = trees.iter().flat_map(|one| trees.iter().map(move |other| check(one, other)));
        assert_eq!(done.filter(|&done| done).count(), possible);
    }
}

#[test]
fn random_pairs_of_trees() {
    let mut random = Random(7);
    for (layout, leaves) in [(Ring, 5), (Ring, 6), (Rack, 5), (Rack, 6)] {
        let trees = trees(layout, leaves);
        let mut done = 0;
        for _ in 0..6_000 {
            let (one, other) = (random.below(trees.len()), random.below(trees.len()));
            done += usize::from(check(&trees[one], &trees[other]));
        }
        assert!((1_000..5_000).contains(&done), "{done}");
    }
}

/// Grows two rings or racks, and a third with the groups of both, and checks that it is their intersection. One group in
/// `odd` is no run of the hidden order. Returns whether there is an intersection.
fn check_grown(random: &mut Random, n: usize, odd: usize) -> bool {
    let (layout, hidden) = (random.layout(n), random.shuffled(n));
    let mut two = [Bins::new(layout, n), Bins::new(layout, n)];
    let mut both = Bins::new(layout, n);
    let mut possible = true;
    for _ in 0..2 + random.below(40) {
        let order = if random.below(odd) == 0 { random.shuffled(n) } else { hidden.clone() };
        let limit = [n, 5, n][random.below(3)];
        let list = random.run(layout, &order, limit);
        if two[random.below(2)].join(&list).is_ok() {
            possible &= both.join(&list).is_ok();
        }
    }
    let [one, other] = &two;
    for answer in [one.intersect(other), other.intersect(one)] {
        match answer {
            Ok(common) => assert!(possible && common.nodes == both.nodes, "{} and {}", one.text(), other.text()),
            Err(_) => assert!(answer == refused(8, 0) && !possible, "{} and {}", one.text(), other.text()),
        }
    }
    possible
}

#[test]
fn against_joining() {
    let mut random = Random(8);
    let sizes = (3..20).cycle().take(1_500).chain([63, 64, 65, 100, 255, 256].into_iter().cycle().take(150));
    let done = sizes.filter(|&n| check_grown(&mut random, n, [1_000, 40][n % 2])).count();
    assert!((800..1_600).contains(&done), "{done}");
}

/// Returns the text of the bins 2 to n in P-nodes one in another, each with its bin before the node in it or after it.
fn deep(n: usize, before: bool) -> String {
    let mut item = if before { n.to_string() } else { String::from("2") };
    for k in 3..=n {
        item = if before { format!("P({} {item})", n + 2 - k) } else { format!("P({item} {k})") };
    }
    format!("1 {item}")
}

/// Returns the text of the bins 2 to n, which is even, in C-nodes one in another, each with its two bins before the node
/// in it or after it.
fn deep_c_nodes(n: usize, before: bool) -> String {
    let mut item = if before { n.to_string() } else { String::from("2") };
    for k in (3..n).step_by(2) {
        let (high, low) = (n + 2 - k, n + 1 - k);
        item = if before { format!("C({low} {high} {item})") } else { format!("C({item} {k} {})", k + 1) };
    }
    format!("1 {item}")
}

/// A C-node with three items allows no order that the two P-nodes in its place do not.
#[test]
fn deepest_trees() {
    for n in [4, 6, 18, 256] {
        let [ahead, behind] = [true, false].map(|before| [deep(n, before), deep_c_nodes(n, before)]);
        let bins: Vec<String> = (2..=n).map(|bin| bin.to_string()).collect();
        let whole = format!("1 C({})", bins.join(" "));
        let ring = |text: &str| Bins::of_text(Ring, n, text).unwrap();
        for (one, other) in [(0, 0), (0, 1), (1, 0), (1, 1)] {
            let both = one.max(other);
            assert_eq!(ring(&ahead[one]).intersect(&ring(&ahead[other])).unwrap().text(), ahead[both]);
            assert_eq!(ring(&behind[one]).intersect(&ring(&behind[other])).unwrap().text(), behind[both]);
            assert_eq!(ring(&ahead[one]).intersect(&ring(&behind[other])).unwrap().text(), whole);
            assert_eq!(ring(&behind[one]).intersect(&ring(&ahead[other])).unwrap().text(), whole);
        }
    }
}

#[test]
fn fewest_leaves() {
    for (layout, n) in [(Ring, 1), (Ring, 2), (Rack, 1)] {
        let both = Bins::new(layout, n).intersect(&Bins::new(layout, n)).unwrap();
        assert!(both.nodes[..256].iter().all(|record| *record == UNUSED));
    }
}

/// What an intersection is lent.
#[derive(Clone)]
struct Lent {
    layout: Layout,
    n: usize,
    nodes: Vec<Node>,
    layout2: Layout,
    m: usize,
    other: Vec<Node>,
    third: Vec<Node>,
}

/// Returns a node table for 5 bins that is in form but for a C-node with three neighbours.
fn table_with_three() -> Vec<Node> {
    let mut nodes = Bins::of_text(Ring, 5, "1 C(P(2 3) 4 5)").unwrap().nodes;
    nodes[1].kind = 2;
    nodes
}

/// Causes of refusals in the sequence of the checks.
const CAUSES: [(u8, fn(&mut Lent)); 23] = [
    (1, |lent| lent.n = 0),
    (1, |lent| lent.n = 257),
    (1, |lent| lent.m = 0),
    (1, |lent| lent.m = usize::MAX),
    (15, |lent| (lent.layout, lent.n) = (Rack, 256)),
    (15, |lent| (lent.layout2, lent.m) = (Rack, 256)),
    (2, |lent| lent.nodes.truncate(255)),
    (2, |lent| lent.other.truncate(255)),
    (2, |lent| lent.third.truncate(255)),
    (2, |lent| lent.third.clear()),
    (13, |lent| (lent.n, lent.nodes) = (4, Bins::new(Ring, 4).nodes)),
    (13, |lent| (lent.m, lent.other) = (6, Bins::new(Ring, 6).nodes)),
    (13, |lent| lent.n = 2),
    (13, |lent| (lent.layout, lent.n, lent.nodes) = (Rack, 4, Bins::new(Rack, 4).nodes)),
    (13, |lent| lent.layout2 = Rack),
    (3, |lent| lent.nodes[0].kind = 3),
    (3, |lent| lent.nodes[255].items[254] = 1),
    (3, |lent| lent.other[0].items[1] = 6),
    (3, |lent| lent.other = Bins::new(Ring, 2).nodes),
    (3, |lent| lent.nodes = table_with_three()),
    (3, |lent| lent.other = table_with_three()),
    (8, |lent| lent.other = Bins::of_text(Ring, 5, "1 C(2 4 3 5)").unwrap().nodes),
    (8, |lent| lent.nodes = Bins::of_text(Ring, 5, "1 C(3 2 4 5)").unwrap().nodes),
];

#[test]
fn refusals_by_twos() {
    let ring = Bins::of_text(Ring, 5, "1 C(2 3 4 5)").unwrap();
    let (nodes, other, third) = (ring.nodes.clone(), ring.nodes, vec![PAST; 256]);
    let lent = Lent { layout: Ring, n: 5, nodes, layout2: Ring, m: 5, other, third };
    for (first, (number, change)) in CAUSES.iter().enumerate() {
        for (_, later) in &CAUSES[first..] {
            let mut lent = lent.clone();
            later(&mut lent);
            change(&mut lent);
            let Lent { layout, n, nodes, layout2, m, other, third } = &mut lent;
            assert_eq!(plain::intersect(*layout, *n, nodes, *layout2, *m, other, third), refused(*number, 0));
            assert!(third.iter().all(|record| *record == PAST));
        }
    }
}
