//! Tree texts: written ones, changed ones, texts of the shape that may break a rule, and random bytes.
use crate::draw::Draw;
use crate::tables::{Call, Sides, Size, Tally};

const ALPHABET: &[u8] = b"PC()  0123456789";

/// A byte, mostly one that stands in texts.
fn byte(draw: &mut Draw) -> u8 {
    if draw.one_in(10) {
        return draw.number() as u8;
    }
    draw.pick(ALPHABET)
}

/// The parts of a text that are numbers, as their starts and ends.
fn numerals(text: &[u8]) -> Vec<(usize, usize)> {
    let mut found = Vec::new();
    let mut at = 0;
    while at < text.len() {
        let digits = text[at..].iter().take_while(|b| b.is_ascii_digit()).count();
        if digits > 0 {
            found.push((at, at + digits));
        }
        at += digits.max(1);
    }
    found
}

/// The text with two of its numbers exchanged.
fn exchanged(draw: &mut Draw, text: &[u8]) -> Vec<u8> {
    let found = numerals(text);
    if found.len() < 2 {
        return text.to_vec();
    }
    let i = draw.below(found.len() - 1);
    let j = if draw.one_in(2) { i + 1 } else { i + 1 + draw.below(found.len() - i - 1) };
    let (a, b) = (found[i], found[j]);
    [&text[..a.0], &text[b.0..b.1], &text[a.1..b.0], &text[a.0..a.1], &text[b.1..]].concat()
}

/// Makes one change.
fn change(draw: &mut Draw, text: &mut Vec<u8>) {
    let at = draw.below(text.len() + 1);
    let inside = at.min(text.len().saturating_sub(1));
    match draw.below(8) {
        0 if !text.is_empty() => text[inside] = byte(draw),
        1 if !text.is_empty() => drop(text.remove(inside)),
        2 => text.insert(at, byte(draw)),
        3 => text.truncate(at),
        4 => text.push(byte(draw)),
        5 => kind_changed(draw, text),
        6 => text.resize(text.len() + draw.pick(&[1, 2, 2000]), 0),
        _ => *text = exchanged(draw, text),
    }
}

/// Makes a P-node a C-node or the other way round.
fn kind_changed(draw: &mut Draw, text: &mut [u8]) {
    let places: Vec<usize> = (0..text.len()).filter(|&at| text[at].is_ascii_uppercase()).collect();
    if !places.is_empty() {
        let at = draw.pick(&places);
        text[at] = if text[at] == b'P' { b'C' } else { b'P' };
    }
}

/// A text of the shape whose leaves are these, or of one node among its items.
fn item(draw: &mut Draw, leaves: &[u16], loose: usize) -> String {
    if leaves.len() == 1 {
        return leaves[0].to_string();
    }
    let parts = 2 + draw.below((leaves.len() - 1).min(4));
    let mut cuts: Vec<usize> = (1..leaves.len()).collect();
    draw.shuffle(&mut cuts);
    cuts.truncate(parts - 1);
    cuts.extend([0, leaves.len()]);
    cuts.sort_unstable();
    let mut items: Vec<Vec<u16>> = cuts.windows(2).map(|cut| leaves[cut[0]..cut[1]].to_vec()).collect();
    if draw.one_in(loose) {
        draw.shuffle(&mut items);
    }
    let kind = draw.pick(&['P', 'C']);
    let texts: Vec<String> = items.iter().map(|part| item(draw, part, loose)).collect();
    format!("{kind}({})", texts.join(" "))
}

/// A text of the shape for n leaves. Some keep the P and C rules, some do not.
pub fn shaped(draw: &mut Draw, n: usize) -> Vec<u8> {
    let mut leaves: Vec<u16> = (2..=n as u16).collect();
    let loose = draw.pick(&[2, 10, 1000]);
    for _ in 0..draw.pick(&[0, 0, 1, 5]) {
        if n > 2 {
            leaves.swap(draw.below(n - 1), draw.below(n - 1));
        }
    }
    match n {
        1 => b"1".to_vec(),
        _ => format!("1 {}", item(draw, &leaves, loose)).into_bytes(),
    }
}

/// The size that the reader is given.
fn given(draw: &mut Draw, size: Size) -> Size {
    if draw.one_in(15) {
        return draw.other_size(size);
    }
    size
}

/// Whether the node that a tree text has here has just two items.
fn has_two_items(text: &[u8]) -> bool {
    let (mut depth, mut spaces) = (0, 0);
    for byte in text {
        match byte {
            b'(' => depth += 1,
            b')' if depth == 1 => break,
            b')' => depth -= 1,
            b' ' => spaces += usize::from(depth == 1),
            _ => {}
        }
    }
    spaces == 1
}

/// How an accepted text is written again: a node with three neighbours is a P-node.
fn again(text: &[u8]) -> Vec<u8> {
    let letter = |at: usize| if text[at] == b'C' && has_two_items(&text[at..]) { b'P' } else { text[at] };
    (0..text.len()).map(letter).collect()
}

/// Reads the text on both sides. Where it is accepted, it is written again, and counted if it is changed. Returns whether it is accepted.
fn read(tally: &mut Tally, sides: &mut Sides, size: Size, text: &[u8]) -> bool {
    let answer = sides.call(tally, size, Call::Read(text));
    if answer.is_ok() {
        let again = again(text);
        if again != text {
            tally.count("three neighbours", size.layout, &answer);
        }
        sides.refill(size.n, 96, 2048, 0xa5a5);
        assert_eq!(sides.call(tally, size, Call::Write), Ok(text.len()), "{}", String::from_utf8_lossy(text));
        assert_eq!(sides.text(text.len()), again);
        assert_eq!(sides.call(tally, size, Call::Order), Ok(size.n));
    }
    answer.is_ok()
}

/// Joins some groups to the tree that was read: runs of its standard order, and any leaves.
fn joined(tally: &mut Tally, draw: &mut Draw, sides: &mut Sides, size: Size) {
    let Size { layout, n } = size;
    let order = sides.ours.order[..n].to_vec();
    let mut count = 0;
    for _ in 0..draw.below(5) {
        let group = if draw.one_in(3) { draw.group(n) } else { draw.run(layout, &order) };
        let tried = sides.call(tally, size, Call::Trial(count, &group));
        assert_eq!(tried, sides.call(tally, size, Call::Join(count, &group)));
        count = tried.unwrap_or(count);
    }
}

/// Reads a changed form of a written text.
pub fn changed(tally: &mut Tally, draw: &mut Draw, sides: &mut Sides, size: Size, written: &[u8]) {
    let mut text = written.to_vec();
    for _ in 0..1 + draw.below(3) {
        change(draw, &mut text);
    }
    let size = given(draw, size);
    read(tally, sides, size, &text);
}

/// Reads a text of the shape, or one changed, and joins groups to its tree.
pub fn of_the_shape(tally: &mut Tally, draw: &mut Draw, sides: &mut Sides, size: Size) {
    let text = shaped(draw, size.leaves());
    if draw.one_in(3) {
        return changed(tally, draw, sides, size, &text);
    }
    if read(tally, sides, size, &text) {
        joined(tally, draw, sides, size);
    }
}

/// Reads random bytes, mostly of those that stand in texts.
pub fn random(tally: &mut Tally, draw: &mut Draw, sides: &mut Sides, size: Size) {
    let length = draw.pick(&[0, 3, 8, 20, 60, 3000]);
    let mut text: Vec<u8> = draw.pick(&[&b""[..], b"1", b"1 ", b"1 P(", b"1 C(2 "]).to_vec();
    for _ in 0..draw.below(length + 1) {
        text.push(byte(draw));
    }
    read(tally, sides, size, &text);
}
