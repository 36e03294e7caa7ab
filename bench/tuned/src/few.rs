//! The edges of a rack with few of them, one by one.

use crate::bits::{self, Row};
use crate::counts::are_right;
use crate::layout::{edges, owner_bits, word, RackBytes, MATES_AT, RANKS_AT, ROSTERS_AT, ROWS_AT};
use crate::settings::Setting;

/// Whether no owner stands below the other end, no edge has two owners or joins
/// a vertex to itself, and the edge number and all counts are right and below
/// their thresholds.
pub fn edges_are_right(rack: &RackBytes, setting: &Setting, ownable: &[Row; 8]) -> bool {
    let mut tally = Tally {
        counts: [0; 256],
        found: 0,
        outside: 0,
        twice: 0,
    };
    let counted = setting.counted;
    let groups = rack[RANKS_AT..MATES_AT].chunks_exact(8);
    let rows = rack[ROWS_AT..ROSTERS_AT].chunks_exact(256);
    for (group, (ranks, rows)) in groups.zip(rows).enumerate() {
        if word(ranks) == 0 {
            tally.unranked(rows);
            continue;
        }
        for (k, (&rank, row)) in ranks.iter().zip(rows.chunks_exact(32)).enumerate() {
            let row = [0, 8, 16, 24].map(|at| word(&row[at..at + 8]));
            if row[0] | row[1] | row[2] | row[3] != 0 {
                let class = usize::from(rank & 7);
                let v = (8 * group + k) as u8;
                tally.add(rack, v, &row, &ownable[class], counted[class]);
            }
        }
    }
    tally.is_right(rack, setting)
}

/// What the edges come to.
struct Tally {
    counts: [u32; 256],
    found: u32,
    /// Edges that their owner may not own.
    outside: u64,
    /// Whether an edge has two owners.
    twice: u8,
}

impl Tally {
    /// The rows of eight vertices of rank 0, which own nothing.
    fn unranked(&mut self, rows: &[u8]) {
        let words = rows.chunks_exact(8).map(word);
        self.outside |= words.fold(0, |all, word| all | word);
    }

    /// Adds the edges of one row. An edge counts for both its ends from its
    /// owner's rank upward, since that is the higher one. A row that names its
    /// own vertex shows as an edge with two owners.
    #[inline(always)]
    fn add(&mut self, rack: &RackBytes, v: u8, row: &Row, ownable: &Row, one: u32) {
        let (mut size, mut owners) = (0_u32, 0);
        for k in 0..4 {
            self.outside |= row[k] & !ownable[k];
        }
        bits::each(row, |w| {
            let count = &mut self.counts[usize::from(w)];
            *count = count.wrapping_add(one);
            owners |= owner_bits(rack, w, v);
            size += 1;
        });
        let own = &mut self.counts[usize::from(v)];
        *own = own.wrapping_add(size.wrapping_mul(one));
        self.found += size;
        self.twice |= owners >> (v & 7) & 1;
    }

    /// Whether all this stands in the rack, each count below its threshold.
    fn is_right(&self, rack: &RackBytes, setting: &Setting) -> bool {
        are_right(rack, setting, |v| self.counts[v])
            && self.found == u32::from(edges(rack))
            && self.outside == 0
            && self.twice == 0
    }
}
