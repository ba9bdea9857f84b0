//! Ring files, accepted and changed ones: what they hold, and their names and groups, by the file's numbers and by any.
use crate::draw::Draw;
use crate::tables::{Answer, Tally};
use std::collections::HashSet;
use tokuwhape::{File, Layout};

const LETTERS: &[u8] = b"ABCDEFGHIJKLMNOPQRSTUVWXYZabcdefghijklmnopqrstuvwxyz0123456789";

/// A name of up to `most` bytes.
fn name(draw: &mut Draw, most: usize) -> Vec<u8> {
    (0..1 + draw.below(most)).map(|_| draw.pick(LETTERS)).collect()
}

/// n names, all different.
fn names(draw: &mut Draw, n: usize) -> Vec<Vec<u8>> {
    let most = if n < 20 { draw.pick(&[1, 2, 8]) } else { draw.pick(&[2, 3, 8]) };
    let mut seen = HashSet::new();
    let mut names = Vec::new();
    while names.len() < n {
        let next = name(draw, most);
        if seen.insert(next.clone()) {
            names.push(next);
        }
    }
    names
}

/// A ring file with n names and so many lines of values.
fn file(draw: &mut Draw, n: usize, lines: usize) -> Vec<u8> {
    let mut bytes = names(draw, n).join(&b' ');
    bytes.push(b'\n');
    for _ in 0..lines {
        let values: Vec<[u8; 1]> = (0..n).map(|_| [draw.pick(b"001-")]).collect();
        bytes.extend(values.join(&b' '));
        bytes.push(b'\n');
    }
    bytes
}

/// Makes one change.
fn change(draw: &mut Draw, bytes: &mut Vec<u8>) {
    let near = if draw.one_in(2) { bytes.len() } else { bytes.len().min(40) };
    let at = draw.below(near + 1);
    let inside = at.min(bytes.len().saturating_sub(1));
    let byte = if draw.one_in(8) { draw.number() as u8 } else { draw.pick(b" \n01-AZaz9_\r") };
    match draw.below(6) {
        0 | 1 if !bytes.is_empty() => bytes[inside] = byte,
        2 if !bytes.is_empty() => drop(bytes.remove(inside)),
        3 => bytes.insert(at, byte),
        4 => bytes.truncate(at),
        _ => {
            let from = draw.below(bytes.len() + 1);
            let length = draw.below(10).min(bytes.len() - from);
            let part = bytes[from..from + length].to_vec();
            bytes.splice(at..at, part);
        }
    }
}

/// Compares what the file holds. Returns it where the file is accepted.
fn scan(tally: &mut Tally, bytes: &[u8]) -> Option<File> {
    let ours = tokuwhape::scan(bytes).map_err(|refusal| (refusal.number(), refusal.place().unwrap_or(0)));
    let theirs = plain::scan(bytes).map_err(|refused| (refused.number, refused.place));
    let theirs = theirs.map(|file| File { names: file.names, head: file.head, lines: file.lines });
    assert_eq!(ours, theirs, "{:?}", String::from_utf8_lossy(bytes));
    let answer: Answer = ours.map(|file| file.names);
    tally.count("scan", Layout::Ring, &answer);
    ours.ok()
}

/// Compares a name: the part of the file that it is.
fn compare_name(tally: &mut Tally, bytes: &[u8], k: usize) {
    let (ours, theirs) = (tokuwhape::name_of(bytes, k), plain::name_of(bytes, k));
    assert_eq!(ours.as_ptr_range(), theirs.as_ptr_range(), "name {k} of {:?}", String::from_utf8_lossy(bytes));
    tally.count("name", Layout::Ring, &Ok(ours.len()));
}

/// Compares a group, with so many places for it.
fn compare_group(tally: &mut Tally, bytes: &[u8], shape: File, line: usize, places: usize) {
    let (mut ours, mut theirs) = (vec![7; places], vec![7; places]);
    let many = tokuwhape::group_of(bytes, shape, line, &mut ours);
    assert_eq!(many, plain::group_of(bytes, shape.names, shape.head, line, &mut theirs), "{shape:?}, line {line}");
    assert_eq!(ours, theirs, "{shape:?}, line {line}");
    if places < shape.names {
        assert!(many == 0 && ours.iter().all(|&old| old == 7));
    }
    tally.count("group", Layout::Ring, &Ok(many));
}

/// A number near another, or none that any file has.
fn any_number(draw: &mut Draw, near: usize) -> usize {
    let (small, far) = (draw.below(300), usize::MAX - draw.below(4));
    let any = (draw.number() >> draw.below(64)) as usize;
    draw.pick(&[near, near, near.saturating_sub(1), near + 1, 0, small, any, far, far / 2, far / 512])
}

/// Compares names and groups by numbers that need not be the file's.
fn compare_any(tally: &mut Tally, draw: &mut Draw, bytes: &[u8], near: File) {
    let k = any_number(draw, near.names);
    compare_name(tally, bytes, k);
    let (names, head) = (any_number(draw, near.names), any_number(draw, near.head));
    let line = any_number(draw, near.lines);
    let small = draw.below(300);
    let places = draw.pick(&[256, near.names, names.min(300), small]);
    compare_group(tally, bytes, File { names, head, lines: near.lines }, line, places);
}

/// Compares what the file holds, and some names and groups.
fn compare(tally: &mut Tally, draw: &mut Draw, bytes: &[u8]) {
    let Some(shape) = scan(tally, bytes) else {
        let head = bytes.iter().position(|&byte| byte == b'\n').map_or(bytes.len(), |end| end + 1);
        let names = bytes[..head].split(|&byte| byte == b' ').count();
        let lines = (bytes.len() - head) / (2 * names);
        for _ in 0..3 {
            compare_any(tally, draw, bytes, File { names, head, lines });
        }
        return;
    };
    for k in [0, shape.names - 1, draw.below(shape.names)] {
        compare_name(tally, bytes, k);
    }
    if shape.lines > 0 {
        for line in [0, shape.lines - 1, draw.below(shape.lines)] {
            let places = draw.pick(&[shape.names, shape.names + 3, 256, shape.names - 1]);
            compare_group(tally, bytes, shape, line, places);
        }
    }
    compare_any(tally, draw, bytes, shape);
}

/// A ring file, accepted or changed.
pub fn any(tally: &mut Tally, draw: &mut Draw) {
    let n = draw.many();
    let lines = draw.pick(&[0, 1, 2, 5, 20]);
    let mut bytes = file(draw, n, lines);
    if !draw.one_in(4) {
        for _ in 0..1 + draw.below(2) {
            change(draw, &mut bytes);
        }
    }
    compare(tally, draw, &bytes);
}

/// Files with 255 to 258 names, repeated ones among them, and files as long as a file may be or longer.
pub fn long(tally: &mut Tally, draw: &mut Draw) {
    for n in [255, 256, 257, 258] {
        for lines in [0, 1, 40] {
            let mut bytes = file(draw, n, lines);
            compare(tally, draw, &bytes);
            change(draw, &mut bytes);
            compare(tally, draw, &bytes);
        }
    }
    for n in [1, 2, 7, 100, 256] {
        let bytes = file(draw, n, 65_536 / n);
        for length in [65_535, 65_536, 65_537, bytes.len()] {
            compare(tally, draw, &bytes[..length.min(bytes.len())]);
        }
        let whole = bytes[..65_536].iter().rposition(|&byte| byte == b'\n').map_or(0, |end| end + 1);
        compare(tally, draw, &bytes[..whole]);
    }
}
