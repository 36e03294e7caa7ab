//! Counting the bits of all 256 columns of some rows at once. The counts stand
//! in bit planes: bit w of plane p is bit p of the count of column w. Rows are
//! added as by paper and pencil, plane by plane, with carries.

use crate::bits::Row;
use crate::lanes::{full_add, half_add, or, swap, Lanes, NONE};
use crate::layout::{half, RackBytes};

/// The P planes of 128 columns, 6 for counts up to 63 or 8 for counts up to 255, and
/// the columns whose count went over that. Half of the columns are worked on at a
/// time, so that their planes find room in the registers.
#[derive(Clone, Copy)]
struct Planes<const P: usize> {
    planes: [Lanes; P],
    over: Lanes,
}

/// The column counts of the rows added so far.
pub struct Columns<const P: usize> {
    halves: [Planes<P>; 2],
    counts: [u8; 256],
}

impl<const P: usize> Columns<P> {
    pub fn start() -> Columns<P> {
        let none = Planes {
            planes: [NONE; P],
            over: NONE,
        };
        Columns {
            halves: [none; 2],
            counts: [0; 256],
        }
    }

    /// Adds the rows of some vertices and gives the counts up to now.
    pub fn add_rows(&mut self, rack: &RackBytes, vertices: &[u8]) -> [u8; 256] {
        if vertices.is_empty() {
            return self.counts;
        }
        let counts = self.counts.chunks_exact_mut(128);
        for ((h, planes), counts) in self.halves.iter_mut().enumerate().zip(counts) {
            let mut sum = *planes;
            let eights = vertices.chunks_exact(8);
            for &v in eights.remainder() {
                sum.add(half(rack, v, h));
            }
            for eight in eights {
                sum.add_eight(|k| half(rack, eight[k], h));
            }
            *planes = sum;
            sum.write(counts);
        }
        self.counts
    }

    /// The columns whose count isn't 0.
    pub fn some(&self) -> Row {
        let [[a, b], [c, d]] = self
            .halves
            .map(|half| half.planes.into_iter().fold(half.over, or));
        [a, b, c, d]
    }

    /// Whether some count is more than the planes can tell.
    pub fn too_many(&self) -> bool {
        self.halves.iter().any(|half| half.over != NONE)
    }
}

impl<const P: usize> Planes<P> {
    fn add(&mut self, row: Lanes) {
        self.carry(0, row);
    }

    /// Adds eight rows: seven full adders for the three lowest planes, and one
    /// carry for the others.
    #[inline(always)]
    fn add_eight(&mut self, row: impl Fn(usize) -> Lanes) {
        let planes = &mut self.planes;
        let first = full_add(&mut planes[0], row(0), row(1));
        let second = full_add(&mut planes[0], row(2), row(3));
        let upper = full_add(&mut planes[1], first, second);
        let first = full_add(&mut planes[0], row(4), row(5));
        let second = full_add(&mut planes[0], row(6), row(7));
        let lower = full_add(&mut planes[1], first, second);
        let carry = full_add(&mut planes[2], upper, lower);
        self.carry(3, carry);
    }

    #[inline(always)]
    fn carry(&mut self, from: usize, bits: Lanes) {
        let mut carry = bits;
        for plane in &mut self.planes[from..] {
            carry = half_add(plane, carry);
        }
        self.over = or(self.over, carry);
    }

    /// Writes the counts of these 128 columns, a byte each. First the bits of
    /// each column come together in one byte, then the bytes in order.
    fn write(&self, counts: &mut [u8]) {
        let mut words = [NONE; 8];
        words[..P].copy_from_slice(&self.planes);
        spread::<1>(&mut words, 1, 0x5555_5555_5555_5555);
        spread::<2>(&mut words, 2, 0x3333_3333_3333_3333);
        spread::<4>(&mut words, 4, 0x0f0f_0f0f_0f0f_0f0f);
        spread::<1>(&mut words, 8, 0x00ff_00ff_00ff_00ff);
        spread::<2>(&mut words, 16, 0x0000_ffff_0000_ffff);
        spread::<4>(&mut words, 32, 0x0000_0000_ffff_ffff);
        for (k, counts) in counts.chunks_exact_mut(64).enumerate() {
            for (counts, word) in counts.chunks_exact_mut(8).zip(&words) {
                counts.copy_from_slice(&word[k].to_le_bytes());
            }
        }
    }
}

/// Swaps parts between all words that stand so far apart.
#[inline(always)]
fn spread<const APART: usize>(words: &mut [Lanes; 8], shift: usize, mask: u64) {
    for group in words.chunks_exact_mut(2 * APART) {
        let (some, others) = group.split_at_mut(APART);
        for (some, others) in some.iter_mut().zip(others) {
            swap(some, others, shift, mask);
        }
    }
}
