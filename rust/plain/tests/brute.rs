//! Small rings and racks against all their orders, and large ones grown along a hidden order.

mod common;

use common::orders::{allowed, hangs_together, orders};
use common::{refused, Bins, Random};
use plain::Layout::{self, Rack, Ring};

/// Returns the bins of a set of marks.
fn bins(marks: usize) -> Vec<u16> {
    (1..=16).filter(|bin| marks >> (bin - 1) & 1 == 1).collect()
}

/// Returns the conflict list by the leaving-out rule over all orders.
fn leaving_out(layout: Layout, orders: &[Vec<u16>], book: &[Vec<u16>], list: &[u16]) -> Vec<u16> {
    let possible = |kept: &[bool]| {
        let holds = |order: &&Vec<u16>| {
            let groups = book.iter().zip(kept).filter(|(_, &kept)| kept);
            let together = |list: &[u16]| hangs_together(layout, order, list);
            together(list) && groups.into_iter().all(|(group, _)| together(group))
        };
        orders.iter().find(holds).is_some()
    };
    let mut kept = vec![true; book.len()];
    if possible(&kept) {
        return Vec::new();
    }
    for k in 0..book.len() {
        kept[k] = false;
        kept[k] = possible(&kept);
    }
    (0..book.len()).filter(|&k| kept[k]).map(|k| k as u16 + 1).collect()
}

/// Whether the bin is one of the group's and stands in the middle of its run: as many of the run's bins before it as
/// after it; or one more on one side, and then on the even place, but not on the last one where the other is place 0.
fn in_the_middle(layout: Layout, order: &[u16], group: &[u16], bin: u16) -> bool {
    let n = order.len();
    let place = order.iter().position(|&other| other == bin).unwrap();
    let member = |place: &usize| group.contains(&order[place % n]);
    let (before, after) = if layout == Ring && group.len() < n {
        let before = (1..n).map(|k| place + n - k).take_while(member).count();
        (before, (1..n).map(|k| place + k).take_while(member).count())
    } else {
        ((0..place).rev().take_while(member).count(), (place + 1..n).take_while(member).count())
    };
    let rounded = place % 2 == 0 && !(after > before && place == n - 1);
    group.contains(&bin) && (before == after || before.abs_diff(after) == 1 && rounded)
}

/// Checks the tree, and trials, conflicts and aims for all groups, against the orders that must be left.
fn check(planned: &Bins, all: &[Vec<u16>], left: &[Vec<u16>], book: &[Vec<u16>]) {
    let layout = planned.layout;
    assert_eq!(allowed(planned), left);
    assert_eq!(planned.order(), left[0]);
    planned.text();
    for marks in 0..1 << planned.n {
        let list = bins(marks);
        let possible = left.iter().any(|order| hangs_together(layout, order, &list));
        let expected = if possible { Ok(planned.count + 1) } else { refused(8, 0) };
        assert_eq!(planned.clone().join(&list), expected);
        if marks % 5 == planned.count % 5 {
            assert_eq!(planned.conflict(&list), leaving_out(layout, all, book, &list), "{book:?} {list:?}");
        }
    }
    for (k, group) in book.iter().enumerate() {
        match planned.aim(k + 1) {
            Ok(bin) => assert!(in_the_middle(layout, &left[0], group, bin as u16), "{group:?} {bin}"),
            answer => assert!(group.is_empty() && answer == refused(14, 0)),
        }
    }
}

/// Joins random groups to fresh rings or racks of n bins, and checks each step.
fn check_grown(random: &mut Random, layout: Layout, n: usize, times: usize) {
    let all = orders(layout, n);
    for _ in 0..times {
        let mut planned = Bins::new(layout, n);
        let mut left = all.clone();
        let mut book = Vec::new();
        for _ in 0..6 {
            let list = bins(random.below(1 << n));
            if planned.join(&list).is_ok() {
                left.retain(|order| hangs_together(layout, order, &list));
                book.push(list);
            }
            check(&planned, &all, &left, &book);
        }
    }
}

#[test]
fn rings_against_all_orders() {
    let mut random = Random(1);
    (1..=6).for_each(|n| check_grown(&mut random, Ring, n, 20));
}

#[test]
fn racks_against_all_orders() {
    let mut random = Random(9);
    (1..=5).for_each(|n| check_grown(&mut random, Rack, n, 20));
    check_grown(&mut random, Rack, 6, 6);
}

/// Every group in every book of one group: where it has an aim, and where it is a run only past the ends.
#[test]
fn aims_of_racks() {
    for n in 1..=6 {
        let fresh = Bins::new(Rack, n);
        let standard: Vec<u16> = (1..=n as u16).collect();
        for marks in 1..1 << n {
            let book = [&[marks as u64], &[0; 383][..]].concat();
            let (aim, group) = (plain::aim(Rack, n, &fresh.nodes, &book, 1, 1), bins(marks));
            match aim {
                Ok(bin) => assert!(in_the_middle(Rack, &standard, &group, bin as u16), "{group:?} {bin}"),
                _ => assert!(aim == refused(10, 0) && !hangs_together(Rack, &standard, &group), "{group:?}"),
            }
        }
    }
}

#[test]
fn runs_of_a_hidden_order() {
    let mut random = Random(2);
    for n in [3, 7, 20, 64, 100, 255, 256] {
        for limit in [3, 16, n] {
            let (layout, hidden) = (random.layout(n), random.shuffled(n));
            let mut planned = Bins::new(layout, n);
            let mut lists: Vec<Vec<u16>> = Vec::new();
            for count in 1..=96 {
                let list = random.run(layout, &hidden, limit);
                assert_eq!(planned.join(&list), Ok(count));
                lists.push(list);
            }
            let order = planned.order();
            assert!(lists.iter().all(|list| hangs_together(layout, &order, list)));
            planned.text();
            planned.count -= 1;
            planned.book[380..384].fill(0);
            let scattered = &random.shuffled(n)[..n.div_ceil(3)];
            let conflict = planned.conflict(scattered);
            let possible = planned.clone().join(scattered).is_ok();
            assert!(possible || !conflict.is_empty());
        }
    }
}

#[test]
fn nodes_to_the_bound() {
    let mut ring = Bins::new(Ring, 256);
    let mut list = vec![2];
    for bin in 3..=97 {
        list.push(bin);
        ring.join(&list).unwrap();
    }
    assert!(ring.text().starts_with("1 P(P(P("));
    let mut text = String::from("1 ");
    text += &(2..256).map(|bin| format!("P({bin} ")).collect::<String>();
    text += "256";
    text += &")".repeat(254);
    let mut ring = Bins::of_text(Ring, 256, &text).unwrap();
    assert_eq!(ring.text(), text);
    let far = [2, 256];
    assert_eq!(ring.join(&far), Ok(1));
    assert!(ring.text().starts_with("1 C("));
    let rack = Bins::of_text(Rack, 255, &text).unwrap();
    assert_eq!(rack.order(), (1..=255).collect::<Vec<_>>());
}
