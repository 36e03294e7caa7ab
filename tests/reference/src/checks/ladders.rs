//! Ladders: adds by which several levels are reached at once, at all settings (document
//! 02, W-207); worked out by hand for any growth.
//!
//! In a ladder to level i the idle board 0 has one neighbour too few for each level up to
//! i: none below 0, g-1 below 1, g^2-1 below 2 and so on, each with a mate at its own
//! level. Then it is linked to one more idle board, the last. By this it reaches all
//! these levels; it rises to i and draws that board. A short ladder has more neighbours
//! at i, but after the add still one too few for i+1.
//!
//! With growth 2 no board at 0 may have a second neighbour below 1, so that no ladder
//! reaches level 1, and none stops there.

use super::cases::{play, Case};
use super::makers::drawn_with;
use super::settings::limit;
use super::{Tally, Verdict};
use crate::{Rack, Settings};

/// The most boards of a rack.
const MOST: usize = 256;

struct Ladder {
    settings: Settings,
    to: i32,
    short: bool,
}

impl Ladder {
    /// The levels of the neighbours of board 0, by their number from 1 on.
    fn levels(&self) -> Vec<i32> {
        let mut levels = Vec::new();
        for level in 0..self.to {
            if (self.settings.growth, level) != (2, 0) {
                levels.resize(limit(self.settings, level + 1) - 1, level);
            }
        }
        if self.short {
            levels.resize(limit(self.settings, self.to + 1) - 2, self.to);
        }
        levels
    }

    fn case(&self) -> Case {
        let levels = self.levels();
        let mut pairs = pairs_of(&levels);
        let mates: Vec<(usize, usize)> = pairs.iter().map(|&(v, w, _)| (v, w)).collect();
        let around = 1..=levels.len();
        let before: Vec<_> = around
            .clone()
            .map(|v| (v, 0))
            .chain(mates.clone())
            .collect();
        let last = 1 + 2 * pairs.len();
        let rack = drawn_with(self.settings, last + 1, &pairs, &before);
        pairs.push((0, last, self.to));
        let owned = |v: usize| {
            if levels[v - 1] < self.to {
                (0, v)
            } else {
                (v, 0)
            }
        };
        let after: Vec<_> = around.map(owned).chain(mates).chain([(0, last)]).collect();
        Case {
            name: "ladder",
            rack,
            change: (1, 0, last as u32),
            words: vec![limit(self.settings, self.to) as u32 - 1],
            new_pairs: vec![(0, last as u32)],
            falls: 0,
            after: drawn_with(self.settings, last + 1, &pairs, &after),
        }
    }

    /// Whether there is such a ladder: a short one needs a level above.
    fn is_there(&self) -> bool {
        let Ladder {
            settings,
            to,
            short,
        } = *self;
        let high = to + i32::from(short);
        if (settings.growth, to) == (2, 1) || high > settings.top {
            return false;
        }
        // Beside the neighbours 0, the last board, and a mate or more for each level.
        limit(settings, high) + 5 <= MOST
    }
}

/// Pairs of the neighbours of 0, each level by itself. The last of an odd number has a
/// mate beside them, of the next number, that 0 isn't linked to.
fn pairs_of(levels: &[i32]) -> Vec<(usize, usize, i32)> {
    let mut pairs = Vec::new();
    let mut beside = levels.len() + 1;
    for level in 0..=3 {
        let here = (1..=levels.len()).filter(|&v| levels[v - 1] == level);
        for two in here.collect::<Vec<usize>>().chunks(2) {
            let mate = two.get(1).copied().unwrap_or(beside);
            beside = beside.max(mate + 1);
            pairs.push((two[0], mate, level));
        }
    }
    pairs
}

/// All ladders that there are.
pub fn cases() -> Vec<Case> {
    let mut cases = Vec::new();
    for settings in Settings::all() {
        for (to, short) in (0..=settings.top).flat_map(|to| [(to, false), (to, true)]) {
            let ladder = Ladder {
                settings,
                to,
                short,
            };
            if ladder.is_there() {
                cases.push(ladder.case());
            }
        }
    }
    cases
}

/// "The search for a rise stops at the first level, from 3 downwards", with t for 3.
pub fn every_ladder(tally: &mut Tally) -> Verdict {
    let cases = cases();
    for case in &cases {
        let Rack { n, settings, .. } = case.rack;
        play(case).map_err(|why| format!("ladder of {n} boards, {settings:?}: {why}"))?;
        tally.stands(settings, case.after.level[0]);
        tally.changes += 1;
    }
    Ok(format!("{} ladders of all settings: ok", cases.len()))
}
