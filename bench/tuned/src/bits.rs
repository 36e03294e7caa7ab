//! Sets of vertices: 256 bits in four words, bit w mod 64 of word w div 64.

/// A set of vertices, in most places the out-row of one.
pub type Row = [u64; 4];

pub const EMPTY: Row = [0; 4];

pub fn size(row: &Row) -> u32 {
    row.iter().map(|word| word.count_ones()).sum()
}

/// The lowest vertex in word k of a set.
pub fn vertex(k: usize, word: u64) -> u8 {
    (64 * k) as u8 | word.trailing_zeros() as u8
}

/// Goes through a set by rising number.
#[inline(always)]
pub fn each(row: &Row, mut visit: impl FnMut(u8)) {
    for (k, &word) in row.iter().enumerate() {
        each_of(k, word, &mut visit);
    }
}

/// Goes through word k of a set.
#[inline(always)]
pub fn each_of(k: usize, word: u64, mut visit: impl FnMut(u8)) {
    let mut left = word;
    while left != 0 {
        visit(vertex(k, left));
        left &= left - 1;
    }
}

/// The vertex at a place of the set, places from 0; the set has more.
pub fn nth(row: &Row, place: u32) -> u8 {
    let mut place = place;
    for (k, &word) in row.iter().enumerate() {
        if word == 0 {
            continue;
        }
        let ones = word.count_ones();
        if place < ones {
            let mut left = word;
            for _ in 0..place {
                left &= left - 1;
            }
            return vertex(k, left);
        }
        place -= ones;
    }
    0
}

/// The vertices below n, n up to 256.
pub fn below(n: usize) -> Row {
    let mut row = EMPTY;
    for (k, word) in row.iter_mut().enumerate() {
        *word = match n.saturating_sub(64 * k) {
            0 => 0,
            left @ 1..=63 => (1 << left) - 1,
            _ => u64::MAX,
        };
    }
    row
}
