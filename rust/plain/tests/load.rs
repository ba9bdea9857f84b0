//! Test loads: the generator's numbers, the file against the ring file's own readers, and the sequence of the checks.

mod common;

use common::{refused, Bins, Random};
use plain::Layout::Ring;
use plain::{groups, test_load, Draw, File, Generator};

/// The bytes of the longest ring file, and one more.
const FILE: usize = 65_536;
const LENT: usize = FILE + 1;

/// Returns the file of a load, after checking the bytes after it.
fn file(n: usize, seed: u32, groups: usize) -> Vec<u8> {
    let mut bytes = vec![7; LENT];
    let length = test_load(n, seed, groups, &mut bytes).unwrap();
    assert!(bytes[length..FILE].iter().all(|&byte| byte == 0) && bytes[FILE] == 7);
    bytes.truncate(length);
    bytes
}

/// Returns the groups of a file, after checking that it has n names, the numbers of the bins, and no hyphen.
fn groups_of(n: usize, file: &[u8]) -> Vec<Vec<u16>> {
    let File { names, head, lines } = plain::scan(file).unwrap();
    assert!(names == n && !file.contains(&b'-'));
    assert!((0..n).all(|k| plain::name_of(file, k) == (k + 1).to_string().as_bytes()));
    let group = |line| {
        let mut list = vec![0; n];
        let size = plain::group_of(file, names, head, line, &mut list);
        list.truncate(size);
        list
    };
    (0..lines).map(group).collect()
}

/// The first states from seed 1 are published ones.
#[test]
fn published_states() {
    let mut generator = Generator { state: 1 };
    for state in [270_369, 67_634_689, 2_647_435_461, 307_599_695, 2_398_689_233, 745_495_504] {
        let Draw { next, number } = generator.draw(10);
        assert_eq!((next.state, number), (state, state as usize % 10 + 1));
        assert_eq!((generator.take(10), generator), (number, next));
    }
}

/// Seed 1 and four bins: places 4, 3 and 2 are exchanged with places 2, 2 and 2, which makes the circle 1 3 4 2. The
/// groups have 2 bins from place 4 on and 3 bins from place 1 on.
#[test]
fn a_load_of_four() {
    let mut circle = [1, 2, 3, 4];
    assert_eq!(Generator { state: 1 }.shuffle(&mut circle), Generator { state: 2_647_435_461 });
    assert_eq!(circle, [1, 3, 4, 2]);
    assert_eq!(groups(4, 1, 2), [vec![2, 1], vec![1, 3, 4]]);
    assert_eq!(file(4, 1, 2), b"1 2 3 4\n1 1 0 0\n1 0 1 1\n");
}

#[test]
fn the_smallest_and_the_largest() {
    assert_eq!(file(1, u32::MAX, 1), b"1\n1\n");
    let largest = file(256, 1, 96);
    assert_eq!(largest.len(), 50_068);
    assert!(largest.starts_with(b"1 2 3 ") && largest[..916].ends_with(b" 255 256\n"));
}

/// Checks the load of n bins with this seed and so many groups: its file has the groups that the generator draws, and
/// each of them joins.
fn check_load(n: usize, seed: u32, many: usize) {
    let read = groups_of(n, &file(n, seed, many));
    let mut drawn = groups(n, seed, many);
    drawn.iter_mut().for_each(|group| group.sort());
    assert_eq!(read, drawn, "{n} {seed}");
    let mut ring = Bins::new(Ring, n);
    for (count, group) in read.iter().enumerate() {
        assert_eq!(ring.join(group), Ok(count + 1), "{n} {seed}");
    }
}

#[test]
fn loads_of_every_size_hang_together() {
    let mut random = Random(10);
    for n in 1..=256 {
        check_load(n, 1 + random.below(u32::MAX as usize) as u32, 96);
    }
}

#[test]
fn loads_of_many_seeds_hang_together() {
    let mut random = Random(11);
    for seed in (1..=40).chain((0..32).map(|k| 1 << k)).chain([u32::MAX, u32::MAX - 1]) {
        check_load(1 + random.below(20), seed, 1 + random.below(96));
    }
}

/// More groups begin with those of fewer. Every length from 1 to n is among them, and every bin as the first of one.
#[test]
fn groups_of_one_circle() {
    for n in [1, 2, 8, 64] {
        let many = groups(n, 5, 40 * n);
        assert_eq!(many[..n], groups(n, 5, n));
        for k in 1..=n {
            assert!(many.iter().any(|group| group.len() == k) && many.iter().any(|group| usize::from(group[0]) == k));
        }
    }
}

/// What a test load is lent.
#[derive(Clone)]
struct Lent {
    n: usize,
    seed: u32,
    groups: usize,
    bytes: Vec<u8>,
}

/// Causes of refusals in the sequence of the checks.
const CAUSES: [(u8, fn(&mut Lent)); 9] = [
    (1, |lent| lent.n = 0),
    (1, |lent| lent.n = 257),
    (1, |lent| lent.n = usize::MAX),
    (16, |lent| lent.seed = 0),
    (17, |lent| lent.groups = 0),
    (17, |lent| lent.groups = 97),
    (17, |lent| lent.groups = usize::MAX),
    (2, |lent| lent.bytes.truncate(FILE - 1)),
    (2, |lent| lent.bytes.clear()),
];

#[test]
fn refusals_by_twos() {
    let lent = Lent { n: 5, seed: 1, groups: 96, bytes: vec![7; LENT] };
    for (first, (number, change)) in CAUSES.iter().enumerate() {
        for (_, later) in &CAUSES[first..] {
            let mut lent = lent.clone();
            later(&mut lent);
            change(&mut lent);
            let Lent { n, seed, groups, bytes } = &mut lent;
            assert_eq!(test_load(*n, *seed, *groups, bytes), refused(*number, 0));
            assert!(bytes.iter().all(|&byte| byte == 7));
        }
    }
}
