//! Lifts: rises from every level to every higher one, at all settings. And hubs, whose
//! neighbours are as many as a rack has room for.
//!
//! Vertex 0 has one neighbour too few for a level: 1, its mate one level lower, and
//! free ones. Then it gets an edge to the last vertex, which stands at any level below,
//! with a mate of its own if it isn't free. By this 0 rises and draws among all its
//! neighbours.

use crate::asked::Asked;
use crate::both::Twin;
use reference::checks::makers::drawn_with;
use reference::{Rack, Settings};

/// A lift: its settings, the level of the last vertex, and the level that 0 reaches.
pub type Lift = (Settings, i32, i32);

/// All lifts that have room in a rack.
pub fn lifts() -> Vec<Lift> {
    let mut all = Vec::new();
    for settings in Settings::all() {
        for to in (0..=settings.top).filter(|&to| settings.threshold(to) <= 254) {
            all.extend((-1..to.max(0)).map(|from| (settings, from, to)));
        }
    }
    all
}

/// A lift and the add that sets it off, with so many neighbours fewer than needed. The
/// word chooses the last vertex.
pub fn lift((settings, from, to): Lift, fewer: usize) -> (Twin, Asked) {
    let last = settings.threshold(to).saturating_sub(fewer).max(1);
    let (mut pairs, mut edges) = (Vec::new(), Vec::new());
    if last > 1 {
        pairs.push((0, 1, to - 1));
        edges.extend((1..last).map(|v| (0, v)));
    }
    if from >= 0 {
        pairs.push((last, last + 1, from));
        edges.push((last, last + 1));
    }
    let rack = drawn_with(settings, last + 2, &pairs, &edges);
    let asked = Asked {
        code: 1,
        a: last as u32,
        b: 0,
        words: vec![last as u32 - 1],
    };
    (Twin::start(rack), asked)
}

/// A rack of 256 vertices in which 0 has k neighbours, all free but 1, its mate, and
/// none of them with another edge. It is at the highest level whose threshold k reaches.
pub fn hub(settings: Settings, k: usize) -> Rack {
    let reached = |&j: &i32| settings.threshold(j) <= k;
    let level = (0..=settings.top).rev().find(reached).expect("level 0");
    let edges: Vec<(usize, usize)> = (1..=k).map(|v| (0, v)).collect();
    drawn_with(settings, 256, &[(0, 1, level)], &edges)
}

/// The last edge that a hub of 254 has room for, put in, taken out and put in again;
/// then the hub is parted from its mate.
pub fn full_hub(settings: Settings) -> (Twin, [Asked; 4]) {
    let asked = |code, b| Asked {
        code,
        a: 0,
        b,
        words: vec![200],
    };
    let changes = [asked(1, 255), asked(2, 255), asked(1, 255), asked(2, 1)];
    (Twin::start(hub(settings, 254)), changes)
}
