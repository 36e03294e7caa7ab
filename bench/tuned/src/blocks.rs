//! Whether an edge has two owners, told by turning the matrix of rows over its
//! diagonal, 64 rows and columns at a time, and laying it upon itself.

use crate::lanes::{swap, Lanes, NONE};
use crate::layout::{word, RackBytes, ROWS_AT};

/// Two blocks of 64 rows and 64 columns, worked on side by side.
type Blocks = [Lanes; 64];

/// The place of a block: row and column in units of 64.
type Place = (usize, usize);

/// The blocks on and above the diagonal, two by two. Those that more vertices
/// need come last.
const PLACES: [[Place; 2]; 5] = [
    [(0, 0), (0, 1)],
    [(1, 1), (3, 3)],
    [(0, 2), (0, 3)],
    [(1, 2), (1, 3)],
    [(2, 2), (2, 3)],
];

/// Whether no bit of a row stands in its column too. A row that names its own
/// vertex is found as well: that bit is its own mirror image.
pub fn no_edge_has_two_owners(rack: &RackBytes, n: usize) -> bool {
    let mut blocks = [NONE; 64];
    let mut needed = PLACES.iter().take_while(|places| 64 * places[0].1 < n);
    needed.all(|places| {
        fetch(rack, places, &mut blocks);
        turn(&mut blocks);
        !meets(rack, places, &blocks)
    })
}

/// The words of a block, one from each of its rows.
#[inline(always)]
fn words(rack: &RackBytes, (row, column): Place) -> impl Iterator<Item = u64> + '_ {
    let rows = rack[ROWS_AT + 2_048 * (row & 3)..].chunks_exact(32);
    rows.take(64)
        .map(move |row| word(&row[8 * (column & 3)..][..8]))
}

fn fetch(rack: &RackBytes, places: &[Place; 2], blocks: &mut Blocks) {
    let both = words(rack, places[0]).zip(words(rack, places[1]));
    for (lanes, (left, right)) in blocks.iter_mut().zip(both) {
        *lanes = [left, right];
    }
}

/// Whether turned blocks have a bit in common with the blocks on the other
/// side of the diagonal.
fn meets(rack: &RackBytes, places: &[Place; 2], turned: &Blocks) -> bool {
    let [left, right] = places.map(|(row, column)| (column, row));
    let both = words(rack, left).zip(words(rack, right));
    let mut common = 0;
    for (lanes, (left, right)) in turned.iter().zip(both) {
        common |= lanes[0] & left | lanes[1] & right;
    }
    common != 0
}

/// Turns both blocks over their diagonals: halves, quarters and so on down to
/// single bits change places, two sizes at a time.
fn turn(blocks: &mut Blocks) {
    exchange::<16>(blocks, 0x0000_0000_ffff_ffff, 0x0000_ffff_0000_ffff);
    exchange::<4>(blocks, 0x00ff_00ff_00ff_00ff, 0x0f0f_0f0f_0f0f_0f0f);
    exchange::<1>(blocks, 0x3333_3333_3333_3333, 0x5555_5555_5555_5555);
}

/// Exchanges over twice the distance and then over the distance, so that each
/// row is fetched and put back once for both.
fn exchange<const APART: usize>(blocks: &mut Blocks, wide: u64, narrow: u64) {
    for group in blocks.chunks_exact_mut(4 * APART) {
        for k in 0..APART {
            let [mut a, mut b, mut c, mut d] = [0, 1, 2, 3].map(|row| group[row * APART + k]);
            swap(&mut a, &mut c, 2 * APART, wide);
            swap(&mut b, &mut d, 2 * APART, wide);
            swap(&mut a, &mut b, APART, narrow);
            swap(&mut c, &mut d, APART, narrow);
            for (row, lanes) in [a, b, c, d].into_iter().enumerate() {
                group[row * APART + k] = lanes;
            }
        }
    }
}
