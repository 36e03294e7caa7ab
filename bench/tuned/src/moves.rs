//! Adding and dropping an edge of a sound rack, in place.

use crate::draws::Places;
use crate::layout::{self, disown, mate, own, phi, rank, set_phi, RackBytes};
use crate::play::Play;
use crate::settings::{Setting, REACHED};

/// What an accepted change answers.
#[derive(Clone, Copy)]
pub struct Tally {
    pub draws: u32,
    pub falls: u32,
    pub pairs: u32,
}

impl Tally {
    pub fn start(pairs: u32) -> Tally {
        Tally {
            draws: 0,
            falls: 0,
            pairs,
        }
    }
}

/// Adds the edge a-b to a rack that holds so many pairs. If a vertex has to draw and
/// the words aren't enough for it, nothing is done.
#[inline(always)]
pub fn add<P: Places>(
    rack: &mut RackBytes,
    setting: &'static Setting,
    (a, b): (u8, u8),
    places: P,
    enough: impl FnOnce(&RackBytes, usize) -> bool,
    pairs: u32,
) -> Option<Tally> {
    let (low, high) = (a.min(b), a.max(b));
    let counts = put_edge(rack, setting, low, high);
    let Some((first, rank)) = riser(setting, counts) else {
        return Some(Tally::start(pairs));
    };
    let riser = if first { low } else { high };
    if !enough(rack, most_draws(rank, 1)) {
        take_edge(rack, setting, low, high);
        return None;
    }
    // On equal ranks the riser takes its edge at once, so that later no vertex of
    // rank 0 is an owner.
    if riser == high && layout::rank(rack, low) == layout::rank(rack, high) {
        disown(rack, low, high);
        own(rack, high, low);
    }
    let mut play = Play::start(rack, setting, places, pairs);
    play.rise_and_draw(riser, rank);
    play.settle(rank - 1);
    Some(play.tally)
}

/// Drops the edge a-b from a rack that holds so many pairs. If a pair is parted and
/// the words aren't enough for it, nothing is done.
#[inline(always)]
pub fn drop<P: Places>(
    rack: &mut RackBytes,
    setting: &'static Setting,
    (a, b): (u8, u8),
    places: P,
    enough: impl FnOnce(&RackBytes, usize) -> bool,
    pairs: u32,
) -> Option<Tally> {
    if mate(rack, a) != u16::from(b) {
        take_edge(rack, setting, a, b);
        return Some(Tally::start(pairs));
    }
    let rank = rank(rack, a);
    if !enough(rack, most_draws(rank, 2)) {
        return None;
    }
    take_edge(rack, setting, a, b);
    let mut play = Play::start(rack, setting, places, pairs);
    play.part(a, b, rank);
    play.settle(rank);
    Some(play.tally)
}

/// The most draws of a change that begins at a rank with so many who may draw: whoever
/// is drawn at rank 1 was free, and who falls from there has nobody to scan, so that
/// nobody else draws.
fn most_draws(rank: u8, begin: usize) -> usize {
    if rank == 1 {
        begin
    } else {
        usize::MAX
    }
}

/// Takes the edge out, which both ends counted above both ranks.
#[inline(always)]
fn take_edge(rack: &mut RackBytes, setting: &Setting, a: u8, b: u8) {
    disown(rack, a, b);
    disown(rack, b, a);
    layout::set_edges(rack, layout::edges(rack) - 1);
    let counted = setting.counted(rank(rack, a).max(rank(rack, b)));
    for end in [a, b] {
        set_phi(rack, end, phi(rack, end) - counted);
    }
}

/// Puts the edge in: the owner is the end of higher rank, on equal ranks the
/// lower number, and both ends count each other above both ranks. The answer is
/// their counts.
fn put_edge(rack: &mut RackBytes, setting: &Setting, low: u8, high: u8) -> [u32; 2] {
    let (of_low, of_high) = (rank(rack, low), rank(rack, high));
    if of_high > of_low {
        own(rack, high, low);
    } else {
        own(rack, low, high);
    }
    layout::set_edges(rack, layout::edges(rack) + 1);
    let counted = setting.counted(of_low.max(of_high));
    let counts = [low, high].map(|end| phi(rack, end) + counted);
    set_phi(rack, low, counts[0]);
    set_phi(rack, high, counts[1]);
    counts
}

/// Whether the first of two vertices, or else the second, rises after an add, and to
/// which rank: the highest level that a count has reached, and the first one if both
/// reach it.
fn riser(setting: &Setting, [first, second]: [u32; 2]) -> Option<(bool, u8)> {
    let [first, second] = [first, second].map(|phi| setting.lifted(phi) & REACHED);
    let either = first | second;
    if either == 0 {
        return None;
    }
    // The bits of ranks 1 to 4 are 7, 15, 23 and 32.
    let rank = (either.ilog2() + 1) / 8;
    Some((first >> (8 * rank - 1) != 0, rank as u8))
}
