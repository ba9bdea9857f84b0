//! Sets of leaves as four words of 64 marks, leaf 1 the lowest mark of the first word.

/// A set of leaves: leaf `k` is mark `k - 1`.
pub type Marks = [u64; 4];

/// Returns whether mark `k` (from 0) is set.
pub fn has(marks: &Marks, k: usize) -> bool {
    marks[k / 64] >> (k % 64) & 1 == 1
}

/// Sets mark `k` (from 0).
pub fn set(marks: &mut Marks, k: usize) {
    marks[k / 64] |= 1 << (k % 64);
}

/// Clears mark `k` (from 0).
pub fn clear(marks: &mut Marks, k: usize) {
    marks[k / 64] &= !(1 << (k % 64));
}

/// Returns how many marks are set.
pub fn size(marks: &Marks) -> usize {
    marks.iter().map(|word| word.count_ones() as usize).sum()
}

/// Returns the set of the leaves 1 to `n`.
pub fn all(n: usize) -> Marks {
    std::array::from_fn(|w| match n.saturating_sub(64 * w) {
        0 => 0,
        k if k < 64 => (1 << k) - 1,
        _ => u64::MAX,
    })
}

/// Returns the leaves of 1 to `n` that are not in `marks`.
pub fn complement(n: usize, marks: &Marks) -> Marks {
    let all = all(n);
    std::array::from_fn(|w| all[w] & !marks[w])
}

/// Calls `visit` with each mark set (from 0), rising.
pub fn each(marks: &Marks, mut visit: impl FnMut(usize)) {
    for (w, &word) in marks.iter().enumerate() {
        let mut rest = word;
        while rest != 0 {
            visit(64 * w + rest.trailing_zeros() as usize);
            rest &= rest - 1;
        }
    }
}
