//! Fans: racks in which one drop sets off draws and falls by the dozen.
//!
//! Vertices 0 and 1 are a pair at a level, and 0 has an edge to each rib. A rib
//! stands one level lower and has just one neighbour too few to rise: the core,
//! which all ribs share, and three vertices of its own, of which the first is
//! its mate and the other two are a pair. When 0-1 is dropped, 0 falls, and by
//! this the count of every rib reaches its threshold. If each then draws the
//! second of its own vertices, all ribs rise, and the vertices left without a
//! mate fall to level -1.

use crate::asked::Asked;
use reference::checks::makers::drawn_with;
use reference::checks::random::Random;
use reference::{Rack, Settings};

/// A fan: its settings, level and ribs.
pub type Fan = (Settings, i32, usize);

/// The levels, and the most ribs of a fan of the short form at each.
const SHORT: [(i32, usize); 3] = [(1, 3), (2, 14), (3, 48)];

/// All fans of the short form, and those of all settings with one rib and with the
/// most.
pub fn fans() -> Vec<Fan> {
    let of_level = |(level, most)| (1..=most).map(move |ribs| (Settings::SHORT, level, ribs));
    let mut all: Vec<Fan> = SHORT.into_iter().flat_map(of_level).collect();
    for settings in Settings::all() {
        for level in 1..=settings.top {
            let most = most_ribs(settings, level);
            let few = [1, most].into_iter().take(most.min(2));
            all.extend(few.map(|ribs| (settings, level, ribs)));
        }
    }
    all
}

/// The most ribs: one of the core counts them and its mate. None if a rib with its own
/// three vertices and 0 would have too many neighbours, or has no room.
fn most_ribs(settings: Settings, level: i32) -> usize {
    let threshold = settings.threshold(level);
    match threshold.checked_sub(4) {
        Some(core) => (254_usize.saturating_sub(core + core % 2) / 4).min(threshold - 2),
        None => 0,
    }
}

/// A fan, and the drop that opens it. If its core is odd, the last vertex of it has a
/// mate beside the core.
pub fn fan(random: &mut Random, (settings, level, ribs): Fan) -> (Rack, Asked) {
    let core = settings.threshold(level) - 4;
    let low = level - 1;
    let mut pairs = vec![(0, 1, low + 1)];
    let mut edges = vec![(0, 1)];
    for c in (2..2 + core).step_by(2) {
        pairs.push((c, c + 1, low));
        edges.push((c, c + 1));
    }
    let first = 2 + core + core % 2;
    let n = first + 4 * ribs;
    for rib in (first..n).step_by(4) {
        pairs.extend([(rib, rib + 1, low), (rib + 2, rib + 3, low)]);
        edges.extend([(0, rib), (rib + 2, rib + 3)]);
        edges.extend((1..4).map(|own| (rib, rib + own)));
        edges.extend((2..2 + core).map(|c| (c, rib)));
    }
    let rack = drawn_with(settings, n, &pairs, &edges);
    (rack, opening(random, n, core))
}

/// Words by which most ribs draw the second of their own vertices: it stands
/// after 0, the core and the first.
fn opening(random: &mut Random, n: usize, core: usize) -> Asked {
    let others = random.pick(&[0, 0, 10]);
    let word = |random: &mut Random| match random.percent(others) {
        true => random.word(),
        false => core as u32 + 2,
    };
    Asked {
        code: 2,
        a: 0,
        b: 1,
        words: (0..n / 2).map(|_| word(random)).collect(),
    }
}
