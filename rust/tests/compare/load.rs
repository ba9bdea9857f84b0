//! Test loads of any sizes, seeds, counts of groups and lent bytes, those that no load has among them.
use crate::draw::Draw;
use crate::tables::{Answer, Tally};
use tokuwhape::{Layout, RingFile, FILE};

/// What a test load is given, and how many bytes it is lent.
#[derive(Clone, Copy, Debug)]
struct Load {
    n: usize,
    seed: u32,
    groups: usize,
    bytes: usize,
}

/// A seed that is not 0: of few bits, of most of them, or any.
fn seed(draw: &mut Draw) -> u32 {
    let (few, any) = (1 << draw.below(32), 1 + draw.below(u32::MAX as usize) as u32);
    draw.pick(&[1, few, !few, u32::MAX, any, any, any, any])
}

/// A load that is written.
fn drawn(draw: &mut Draw) -> Load {
    let groups = 1 + draw.below(96);
    let bytes = draw.pick(&[FILE, FILE, FILE + 1, FILE + 4]);
    Load { n: draw.many(), seed: seed(draw), groups: draw.pick(&[1, 96, groups, groups]), bytes }
}

/// Makes one change, after which the load is refused or as it was.
fn change(draw: &mut Draw, load: &mut Load) {
    let any = draw.number() as usize;
    match draw.below(4) {
        0 => load.n = draw.pick(&[0, 257, 258, 512, 65_536, 65_537, usize::MAX, any]),
        1 => load.seed = 0,
        2 => load.groups = draw.pick(&[0, 97, 98, 192, 256, 65_537, usize::MAX, any]),
        _ => load.bytes = draw.pick(&[0, 1, 50_068, FILE / 2, FILE - 1, FILE - 1, FILE]),
    }
}

/// Compares the answers to a load and every byte that it is lent. Returns the file where it is written.
fn compare(tally: &mut Tally, draw: &mut Draw, load: Load) -> Option<Vec<u8>> {
    let Load { n, seed, groups, bytes } = load;
    let old = draw.number() as u8;
    let (mut ours, mut theirs) = (vec![old; bytes], vec![old; bytes]);
    let answer: Answer = tokuwhape::test_load(n, seed, groups, &mut ours).map_err(crate::told);
    let other = plain::test_load(n, seed, groups, &mut theirs).map_err(|refused| (refused.number, refused.place));
    assert_eq!(answer, other, "{load:?}");
    assert!(ours == theirs, "bytes differ: {load:?}");
    assert!(answer.is_ok() || ours.iter().all(|&byte| byte == old), "refused and changed: {load:?}");
    tally.count("test load", Layout::Ring, &answer);
    ours.truncate(answer.ok()?);
    Some(ours)
}

/// A load, written or with some changes.
pub fn any(tally: &mut Tally, draw: &mut Draw) {
    let mut load = drawn(draw);
    for _ in 0..draw.pick(&[0, 0, 1, 2]) {
        change(draw, &mut load);
    }
    compare(tally, draw, load);
}

/// Loads whose file is read, and whose groups all join a ring.
pub fn joined(tally: &mut Tally, draw: &mut Draw) {
    for n in [1, 2, 3, 4, 5, 8, 20, 64, 65, 100, 255, 256] {
        for groups in [1, 2, 30, 96] {
            let load = Load { n, groups, ..drawn(draw) };
            let bytes = compare(tally, draw, load).expect("a test load");
            let file = RingFile::read(&bytes).expect("a ring file");
            assert_eq!((file.names(), file.lines()), (n, groups), "{load:?}");
            let (mut ring, lists) = (file.ring(), (0..groups).map(|line| file.group(line).expect("a line")));
            for (list, count) in lists.zip(1..) {
                assert_eq!(ring.join(&list), Ok(count), "{list:?}, {load:?}");
            }
        }
    }
}
