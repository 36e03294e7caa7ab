//! The rosters set against the ranks, 128 vertices at a time: half of a set is two
//! words, and so is one bit of 128 ranks.

use crate::bits::{Row, EMPTY};
use crate::lanes::{each, or, Lanes, NONE};
use crate::layout::{roster, roster_half, word, RackBytes, RANKS_AT};

/// Whether each roster is the set of the vertices with its rank, and no rank is
/// above 4 or that of none of these vertices.
pub fn are_right(rack: &RackBytes, vertices: &Row) -> bool {
    let &[a, b, c, d] = vertices;
    or(wrong(rack, 0, [a, b]), wrong(rack, 1, [c, d])) == NONE
}

/// Whether the rosters above a rank are empty.
pub fn none_above(rack: &RackBytes, rank: u8) -> bool {
    (rank + 1..5).all(|rank| roster(rack, rank) == EMPTY)
}

/// What is wrong with half h of the rosters and ranks: no bit if nothing is.
#[inline(always)]
fn wrong(rack: &RackBytes, h: usize, vertices: Lanes) -> Lanes {
    let (planes, over) = planes(rack, h);
    let roster = |rank: u8| roster_half(rack, rank, h);
    let (zero, one, two, three, four) = (roster(0), roster(1), roster(2), roster(3), roster(4));
    let mut wrong = over;
    for k in 0..2 {
        let [low, middle, high] = [planes[0][k], planes[1][k], planes[2][k]];
        let ranked = low | middle | high;
        wrong[k] |= zero[k] ^ (vertices[k] & !ranked)
            | one[k] ^ (low & !(middle | high))
            | two[k] ^ (middle & !(low | high))
            | three[k] ^ (low & middle & !high)
            | four[k] ^ high
            | high & (low | middle)
            | ranked & !vertices[k];
    }
    wrong
}

/// The vertices of half h that have each of the three bits of a rank, and all other
/// bits that their ranks have.
#[inline(always)]
fn planes(rack: &RackBytes, h: usize) -> ([Lanes; 3], Lanes) {
    let groups = groups(rack, h);
    let all = groups.into_iter().fold(NONE, or);
    if all == NONE {
        return ([NONE; 3], NONE);
    }
    let over = each(all, |word| word & !(7 * 0x0101_0101_0101_0101));
    let two = |g: usize| or(groups[g], each(groups[g + 4], |word| word << 4));
    let packed = [two(0), two(1), two(2), two(3)];
    let planes = [plane(&packed, 0), plane(&packed, 1), plane(&packed, 2)];
    (planes, over)
}

/// The ranks of half h in groups of eight: group g of its first 64 vertices and
/// group g of the others, side by side.
#[inline(always)]
fn groups(rack: &RackBytes, h: usize) -> [Lanes; 8] {
    let at = RANKS_AT + 128 * (h & 1);
    let eight = |at: usize| word(&rack[at..at + 8]);
    let mut groups = [NONE; 8];
    for (g, group) in groups.iter_mut().enumerate() {
        *group = [eight(at + 8 * g), eight(at + 64 + 8 * g)];
    }
    groups
}

/// One bit of all ranks, from groups of which g and g + 4 share a word, each with
/// half of every byte. The bits of group g first come together as bit g of the
/// eight bytes, and are then turned to be byte g.
#[inline(always)]
fn plane(packed: &[Lanes; 4], bit: usize) -> Lanes {
    let mut plane = NONE;
    for (g, &two) in packed.iter().enumerate() {
        let bits = each(two, |word| word >> bit & 0x1111_1111_1111_1111);
        plane = or(plane, each(bits, |word| word << g));
    }
    each(plane, turned)
}

/// Eight bytes of eight bits turned over their diagonal.
#[inline(always)]
fn turned(block: u64) -> u64 {
    let mut block = block;
    for (shift, mask) in [
        (7, 0x00aa_00aa_00aa_00aa),
        (14, 0x0000_cccc_0000_cccc),
        (28, 0x0000_0000_f0f0_f0f0),
    ] {
        let moved = (block ^ block >> shift) & mask;
        block ^= moved ^ moved << shift;
    }
    block
}

/// The vertices to which a vertex of each rank may own edges: those of no higher
/// rank, and for rank 0 none, since phi at 0 is below 1. There is no rank above 4;
/// the places for more spare the test of an index.
pub fn ownable(rack: &RackBytes, vertices: &Row) -> [Row; 8] {
    let (zero, one) = (roster(rack, 0), roster(rack, 1));
    let (two, three) = (roster(rack, 2), roster(rack, 3));
    let mut ownable = [EMPTY; 8];
    for k in 0..4 {
        ownable[1][k] = zero[k] | one[k];
        ownable[2][k] = ownable[1][k] | two[k];
        ownable[3][k] = ownable[2][k] | three[k];
        ownable[4][k] = vertices[k];
    }
    ownable
}
