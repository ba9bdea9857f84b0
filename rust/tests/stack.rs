//! Every call on the deepest trees, and the largest test load, in a thread with the stack that include/tokuwhape.h asks for.
use std::thread;
use tokuwhape::{test_load, Bins, Circular, Orders, Refusal, Straight, FILE, GROUPS, LEAVES};

const STACK: usize = 1 << 20;

/// The text of 256 leaves with one node in another, of these kinds in turn: a P-node has one leaf before the node in it, a C-node two.
fn deepest(kinds: &str) -> String {
    let (mut text, mut leaf, mut depth) = (String::from("1 "), 2, 0);
    for kind in kinds.chars().cycle() {
        if leaf == 256 {
            break;
        }
        let after = leaf + if kind == 'P' { 1 } else { 2 };
        text += &format!("{kind}({}", (leaf..after).map(|leaf| format!("{leaf} ")).collect::<String>());
        (leaf, depth) = (after, depth + 1);
    }
    format!("{text}256{}", ")".repeat(depth))
}

/// Makes every call on the tree of this text, of n leaves and perhaps a rack's hidden end.
fn every_call<O: Orders>(n: u16, text: &str) {
    let mut bins = Bins::<O>::from_text(n.into(), text).expect("a tree text");
    assert_eq!(bins.text(), text);
    assert_eq!(bins.order(), (1..=n).collect::<Vec<u16>>());
    assert_eq!(bins.intersect(&bins).map(|both| both.order()), Ok(bins.order()));
    for group in [vec![n - 1, n], vec![2, n], vec![128, 129], (100..=200).collect(), (1..=n).collect()] {
        let tried = bins.trial(&group);
        assert_eq!(bins.join(&group), tried);
        assert!(matches!(tried, Ok(_) | Err(Refusal::Impossible)));
        assert_eq!(bins.conflict(&[1, 128]), Ok(vec![]));
    }
    assert!(bins.aim(1).is_ok());
}

#[test]
fn a_mebibyte_of_stack_is_enough() {
    let calls = || {
        for text in ["P", "CP", "C"].map(deepest) {
            every_call::<Circular>(256, &text);
            every_call::<Straight>(255, &text);
        }
        assert_eq!(test_load(LEAVES, 1, GROUPS, &mut vec![0; FILE]), Ok(50_068));
    };
    thread::Builder::new().stack_size(STACK).spawn(calls).expect("a thread").join().expect("every call");
}
