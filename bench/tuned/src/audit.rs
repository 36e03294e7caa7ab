//! The audit: whether any 10,152 bytes are a sound rack.

use crate::bits::{self, Row};
use crate::layout::{edges, linked, mates, rank, roster, vertices, RackBytes, FREE};
use crate::settings::{self, Setting};
use crate::{few, many, rosters};

/// Whether n vertices have so many edges that work on whole rows takes fewer
/// instructions than going through the edges one by one. Such work goes in
/// blocks of 64 vertices. The figures were found by measuring.
fn many_edges(rack: &RackBytes, n: usize) -> bool {
    let least = match n {
        0..=64 => 760,
        65..=128 => 900,
        _ => 1_450,
    };
    edges(rack) >= least
}

/// Whether these bytes are a sound rack. Any bytes may be asked about.
pub fn audit(rack: &RackBytes) -> bool {
    pairs_if_sound(rack).is_some()
}

/// The number of pairs; none if the rack isn't sound.
pub fn pairs_if_sound(rack: &RackBytes) -> Option<u32> {
    let n = vertices(rack);
    if !(1..=256).contains(&n) || !settings::are_right(rack) {
        return None;
    }
    let setting = Setting::of(rack);
    let vertices = bits::below(n);
    if !rosters::are_right(rack, &vertices) || !rosters::none_above(rack, setting.highest) {
        return None;
    }
    let unranked = roster(rack, 0);
    let ranked = [0, 1, 2, 3].map(|k| vertices[k] & !unranked[k]);
    let pairs = pairs_if_right(rack, &ranked)?;
    let ownable = rosters::ownable(rack, &vertices);
    let right = if many_edges(rack, n) {
        many::edges_are_right(rack, setting, n, &ownable)
    } else {
        few::edges_are_right(rack, setting, &ownable)
    };
    right.then_some(pairs)
}

/// The number of pairs, if mates name each other and are linked on one rank,
/// and a vertex is free exactly on rank 0. Each pair is looked at from its lower
/// vertex; that no other vertex has a mate is told by counting.
fn pairs_if_right(rack: &RackBytes, ranked: &Row) -> Option<u32> {
    let mates = mates(rack);
    let (mut pairs, mut right) = (0, true);
    bits::each(ranked, |v| {
        let mate = mates[usize::from(v)];
        if mate > u16::from(v) {
            right &= pair_is_right(rack, &mates, v, mate);
            pairs += 1;
        }
    });
    let size = bits::size(ranked);
    let mated: u16 = mates.iter().map(|&mate| u16::from(mate != FREE)).sum();
    (right && size == 2 * pairs && size == u32::from(mated)).then_some(pairs)
}

/// Whether v and its mate are a pair.
#[inline(always)]
fn pair_is_right(rack: &RackBytes, mates: &[u16; 256], v: u8, mate: u16) -> bool {
    let w = mate as u8;
    mate < 256
        && mates[usize::from(w)] == u16::from(v)
        && rank(rack, w) == rank(rack, v)
        && linked(rack, v, w)
}
