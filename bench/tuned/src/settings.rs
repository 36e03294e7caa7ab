//! The settings of a rack, its growth g and its top level t, and what follows from
//! them. "The threshold at j is g to the power j, levels stop at t, and counts above
//! t are 0." All of it stands in one table, so that a change or an audit finds the
//! line of its rack once and then only reads it.

use crate::layout::{RackBytes, GROWTH_AT, ONES, TOP_AT};

/// The settings of the short forms.
pub const SHORT: (u8, u8) = (4, 3);

/// Whether a rack may be made with this growth and top level.
pub fn in_range(growth: u32, top: u32) -> bool {
    (2..=8).contains(&growth) && top <= 3
}

/// Whether bytes 4 to 7 of a rack are a growth, a top level and two zeros.
pub fn are_right(rack: &RackBytes) -> bool {
    let [growth, top, six, seven] = [0, 1, 2, 3].map(|k| rack[GROWTH_AT + k]);
    // Bytes 6 and 7, if they aren't zero, make the top level too high.
    in_range(growth.into(), u32::from_le_bytes([top, six, seven, 0]))
}

/// What follows from one growth and top level. By rank there are more places than
/// ranks, which spares the test of an index.
#[repr(align(128))]
pub struct Setting {
    /// What lifts each count so that its bit in `REACHED` is set exactly once it has
    /// reached its threshold.
    lift: u64,
    /// The bit of each count that is set once it has reached its threshold, if all
    /// thresholds are powers of two; otherwise none.
    pub bits: u32,
    /// The most that a count may be at each level of a sound rack.
    pub most: u32,
    /// The threshold for the level of each rank.
    thresholds: [u32; 8],
    /// What one neighbour counts for a vertex of each rank: a one at each level
    /// above it, up to the top level.
    pub counted: [u32; 8],
    /// The rank of the top level.
    pub highest: u8,
}

/// The bits of lifted counts that tell which have reached their thresholds. Those of
/// levels 0 to 2, up to 64, need no more than seven bits of their byte, and the
/// eighth tells. That of level 3 may need all eight; there the byte runs over into
/// the bits above it, and never if the threshold is over 255. As no count passes its
/// threshold, no other byte runs over.
pub const REACHED: u64 = 0x1_0080_8080;

impl Setting {
    /// The setting that a rack was made with.
    #[inline(always)]
    pub fn of(rack: &RackBytes) -> &'static Setting {
        let both = usize::from(u16::from_le_bytes([rack[GROWTH_AT], rack[TOP_AT]]));
        &SETTINGS[(4 * both + (both >> 8)) & 31]
    }

    #[inline(always)]
    pub fn threshold(&self, rank: u8) -> u32 {
        self.thresholds[usize::from(rank & 7)]
    }

    #[inline(always)]
    pub fn counted(&self, rank: u8) -> u32 {
        self.counted[usize::from(rank & 7)]
    }

    #[inline(always)]
    pub fn lifted(&self, phi: u32) -> u64 {
        u64::from(phi) + self.lift
    }

    const fn new(growth: u32, top: usize) -> Setting {
        let mut setting = Setting {
            lift: 0,
            bits: 0,
            most: 0,
            thresholds: [0; 8],
            counted: [0; 8],
            highest: top as u8 + 1,
        };
        let levels = ONES >> (8 * (3 - top));
        let mut j = 0;
        while j < 4 {
            let threshold = growth.pow(j as u32);
            // No count reaches a threshold over 255; 0 stands for that.
            let byte = if threshold < 256 { threshold } else { 0 };
            let told = if j < 3 { 128 } else { 256 };
            setting.lift |= ((told - byte) as u64 % 256) << (8 * j);
            if growth.is_power_of_two() {
                setting.bits |= byte << (8 * j);
            }
            if j <= top {
                setting.most |= (byte.wrapping_sub(1) & 255) << (8 * j);
            }
            setting.thresholds[j + 1] = threshold;
            setting.counted[j] = (ONES << (8 * j)) & levels;
            j += 1;
        }
        setting
    }
}

/// The setting of growth g and top level t stands in place 4 (g mod 8) + t.
static SETTINGS: [Setting; 32] = {
    let mut all = [const { Setting::new(8, 0) }; 32];
    let mut place = 0;
    while place < 32 {
        let growth = if place < 4 { 8 } else { place as u32 / 4 };
        all[place] = Setting::new(growth, place % 4);
        place += 1;
    }
    all
};
