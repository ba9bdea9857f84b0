//! All texts of the shape of a tree text, and how each is written again.

/// Returns all lists of one or more items that print these bins in this sequence, as texts.
fn lists(bins: &[u16]) -> Vec<String> {
    let mut all = items(bins);
    for cut in 1..bins.len() {
        let (head, tail) = (items(&bins[..cut]), lists(&bins[cut..]));
        all.extend(head.iter().flat_map(|item| tail.iter().map(move |list| format!("{item} {list}"))));
    }
    all
}

/// Returns all items that print these bins in this sequence, as texts.
fn items(bins: &[u16]) -> Vec<String> {
    if let [bin] = bins {
        return vec![bin.to_string()];
    }
    let mut inner: Vec<String> = Vec::new();
    for cut in 1..bins.len() {
        let (head, tail) = (items(&bins[..cut]), lists(&bins[cut..]));
        inner.extend(head.iter().flat_map(|item| tail.iter().map(move |list| format!("{item} {list}"))));
    }
    inner.iter().flat_map(|list| [format!("P({list})"), format!("C({list})")]).collect()
}

/// Returns all sequences of these bins.
pub fn sequences(bins: &[u16]) -> Vec<Vec<u16>> {
    if bins.is_empty() {
        return vec![Vec::new()];
    }
    let first = |&bin: &u16| {
        let others: Vec<u16> = bins.iter().copied().filter(|&other| other != bin).collect();
        sequences(&others).into_iter().map(move |rest| [&[bin], &rest[..]].concat())
    };
    bins.iter().flat_map(first).collect()
}

/// Returns all texts of the shape for n bins, n at least 3.
pub fn shapes(n: u16) -> Vec<String> {
    let bins: Vec<u16> = (2..=n).collect();
    let texts = |sequence: &Vec<u16>| items(sequence).into_iter().map(|item| format!("1 {item}"));
    sequences(&bins).iter().flat_map(texts).collect()
}

/// Returns whether the node at the start of a text has just two items.
fn has_two_items(text: &str) -> bool {
    let (mut depth, mut spaces) = (0, 0);
    for byte in text.bytes() {
        match byte {
            b'(' => depth += 1,
            b')' if depth == 1 => break,
            b')' => depth -= 1,
            b' ' => spaces += usize::from(depth == 1),
            _ => (),
        }
    }
    spaces == 1
}

/// Returns a tree text with each C-node that has three neighbours as a P-node.
pub fn threes_named(text: &str) -> String {
    let letter = |(place, letter)| if letter == 'C' && has_two_items(&text[place..]) { 'P' } else { letter };
    text.char_indices().map(letter).collect()
}
