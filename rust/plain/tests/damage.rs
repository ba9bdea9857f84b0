//! Damaged tables: no call panics, a refusal changes nothing, and an accepted node table is that of its text.

mod common;

use common::shapes::threes_named;
use common::{Bins, Random};
use plain::{Node, Refused};

/// Changes a random entry of a table that is in form.
fn damage(random: &mut Random, bins: &mut Bins) {
    let used = 1 + bins.nodes.iter().take(256).filter(|record| record.kind != 0).count();
    let record = [random.below(used), random.below(256)][random.below(2)];
    let other = random.below(used);
    let value = [random.below(5), random.below(bins.n + 2), 256 + random.below(used + 1), random.below(65_536)];
    let value = value[random.below(4)] as u16;
    let count = usize::from(bins.nodes[record].count).min(254);
    let place = [random.below(count + 1), random.below(255)][random.below(2)];
    let second = random.below(count + 1);
    match random.below(8) {
        0 => bins.nodes[record].kind = value,
        1 => bins.nodes[record].count = value,
        2 | 3 => bins.nodes[record].items[place] = value,
        4 => bins.nodes[record].items.swap(place, second),
        5 => bins.nodes.swap(record, other),
        6 => bins.book[random.below(384)] ^= 1 << random.below(64),
        _ => bins.count = [random.below(98), bins.count.wrapping_add(1), usize::MAX][random.below(3)],
    }
}

/// Returns a ring or a rack grown by random groups.
fn grown(random: &mut Random, n: usize) -> Bins {
    let (layout, hidden) = (random.layout(n), random.shuffled(n));
    let mut bins = Bins::new(layout, n);
    for _ in 0..random.below(12) {
        bins.join(&random.run(layout, &hidden, n)).unwrap();
    }
    bins
}

/// Makes each call that reads the tables; returns whether the node table was accepted.
fn call_all(random: &mut Random, bins: &mut Bins) -> bool {
    let list = &random.shuffled(bins.n)[..random.below(bins.n + 1)];
    let before = bins.clone();
    let accepted = plain::order(bins.layout, bins.n, &bins.nodes, &mut [0; 256]).is_ok();
    let _ = bins.aim(1 + random.below(3));
    let mut conflicts = [777; 96];
    if plain::conflict(bins.layout, bins.n, &bins.book, bins.count, list, &mut conflicts).is_err() {
        assert_eq!(conflicts, [777; 96]);
    }
    if accepted {
        bins.text();
    } else {
        let mut bytes = [1; 2048];
        let refused = Err(Refused { number: 3, place: 0 });
        assert_eq!(plain::write(bins.layout, bins.n, &bins.nodes, &mut bytes), refused);
        assert!(bytes == [1; 2048] && bins.join(list) == refused && *bins == before);
    }
    let _ = bins.join(list);
    accepted
}

#[test]
fn damaged_tables() {
    let mut random = Random(3);
    let mut accepted = 0;
    for n in (1..=9).cycle().take(6_000).chain([64, 255, 256].into_iter().cycle().take(150)) {
        let mut bins = grown(&mut random, n);
        for _ in 0..1 + random.below(2) {
            damage(&mut random, &mut bins);
        }
        if bins.nodes[256] == common::PAST && bins.book[384] == 7 {
            accepted += usize::from(call_all(&mut random, &mut bins));
        }
    }
    assert!((500..6_000).contains(&accepted), "{accepted}");
}

#[test]
fn tables_of_noise() {
    let mut random = Random(4);
    for _ in 0..100 {
        let n = 1 + random.below(256);
        let noise = |random: &mut Random| Node {
            kind: random.below(4) as u16,
            count: random.below(300) as u16,
            items: std::array::from_fn(|_| random.below(600) as u16),
        };
        let nodes: Vec<Node> = (0..256).map(|_| noise(&mut random)).collect();
        let refused = Err(Refused { number: 3, place: 0 });
        assert_eq!(plain::order(random.layout(n), n, &nodes, &mut [0; 256]), refused);
    }
}

#[test]
fn damaged_texts() {
    let mut random = Random(5);
    for _ in 0..4_000 {
        let n = 1 + random.below(14);
        let grown = grown(&mut random, n);
        let mut text = grown.text().into_bytes();
        for _ in 0..1 + random.below(2) {
            let (place, byte) = (random.below(text.len()), b" ()0123456789PC\n"[random.below(16)]);
            match random.below(3) {
                0 => text[place] = byte,
                1 => text.insert(place, byte),
                _ => text.truncate(place + 1),
            }
        }
        let before = Bins::new(grown.layout, n);
        let mut bins = before.clone();
        match plain::read(bins.layout, n, &mut bins.nodes, &mut bins.book, &text) {
            Ok(_) => assert_eq!(bins.text(), threes_named(&String::from_utf8(text).unwrap())),
            Err(refused) => assert!(bins == before && refused.number == 12 && refused.place <= text.len()),
        }
    }
}
