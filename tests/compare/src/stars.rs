//! Draws among every number of neighbours, with words around the one from which on
//! they are passed over.
//!
//! A star is a hub with k neighbours at level -1 and a mate at a level, which is the
//! highest but where all settings are gone through. When the hub and its mate are
//! parted, it falls to the highest level whose threshold k reaches and draws from
//! those k. No drop draws from more than 254: a rack has 256 vertices, and the former
//! mate of the one that draws is no neighbour any more.

use crate::asked::Asked;
use crate::both::{same, Made, Twin};
use crate::tally::Seen;
use crate::Verdict;
use reference::checks::makers::drawn_with;
use reference::checks::random::Random;
use reference::Settings;

/// The most neighbours.
const MOST: usize = 254;

/// How many words there are.
const ALL: u64 = 1 << 32;

/// Numbers of neighbours, and of words passed over before one that chooses.
const LONG: [(usize, usize); 4] = [(3, 300), (7, 70_000), (100, 257), (254, 65_536)];

/// A star: its settings, the level of the hub and its mate, and the neighbours.
pub type Star = (Settings, i32, usize);

/// Stars of every level of all settings, with as many neighbours as the threshold of a
/// level up to that, with one fewer, and with as many as there may be: the mate counts
/// too at the next level.
pub fn landings() -> Vec<Star> {
    let mut all = Vec::new();
    for settings in Settings::all() {
        for level in 0..=settings.top {
            let most = match level == settings.top {
                true => MOST,
                false => MOST.min(settings.threshold(level + 1) - 2),
            };
            let thresholds = (0..=level).map(|j| settings.threshold(j));
            let near = thresholds.flat_map(|k| [k - 1, k]).chain([most]);
            let room = near.filter(|&k| k <= most);
            all.extend(room.map(|k| (settings, level, k)));
        }
    }
    all
}

/// The rows of each number of neighbours.
struct Stars {
    /// Those in which the first word chooses.
    at_once: Seen<usize>,
    /// Those in which words are passed over, and those that run out of words. If
    /// the number is a power of two, every word chooses.
    later: Seen<usize>,
    ran_out: Seen<usize>,
    most_draws: u64,
}

pub fn all() -> Verdict {
    let uneven = || (1..=MOST).filter(|k| !k.is_power_of_two());
    let mut stars = Stars {
        at_once: Seen::of("neighbours", 1..=MOST),
        later: Seen::of("neighbours", uneven()),
        ran_out: Seen::of("neighbours", uneven()),
        most_draws: 0,
    };
    let all = (1..=MOST).map(|k| (k, rows(k)));
    for (k, rows) in all.chain(LONG.map(long_row)) {
        let told = |why| format!("star of {k} neighbours: {why}");
        stars.rows(k, rows).map_err(told)?;
    }
    stars.print();
    stars.at_once.all_came()?;
    stars.later.all_came()?;
    stars.ran_out.all_came()
}

/// Word lists with the words around T, the largest multiple of k that is at most
/// 2^32, and those at both ends of all words, in the first place, in the second and
/// in the third; alone, and before others.
fn rows(k: usize) -> Vec<Vec<u32>> {
    let t = ALL / k as u64 * k as u64;
    let words = [
        0,
        k as u64 - 1,
        k as u64,
        t - 2,
        t - 1,
        t,
        t + 1,
        ALL - 2,
        ALL - 1,
    ];
    let words = words.into_iter().filter(|&word| word < ALL);
    let mut rows = vec![vec![u32::MAX; 6]];
    for word in words.map(|word| word as u32) {
        rows.push(vec![word]);
        rows.push(vec![word, 1]);
        rows.push(vec![u32::MAX, word, 2]);
        rows.push(vec![u32::MAX, u32::MAX - 1, word]);
    }
    rows
}

/// A list of so many words that are passed over and one that chooses.
fn long_row((k, passed): (usize, usize)) -> (usize, Vec<Vec<u32>>) {
    (k, vec![[vec![u32::MAX; passed], vec![7]].concat()])
}

/// A star, its vertices numbered in any way, and the drop that opens it, without words.
pub fn star((settings, level, k): Star) -> (Twin, Asked) {
    let mut order: Vec<usize> = (0..k + 2).collect();
    Random::new(0x1a00_0000 + k as u64).shuffle(&mut order);
    let (hub, mate) = (order[0], order[1]);
    let edges: Vec<(usize, usize)> = order[1..].iter().map(|&v| (hub, v)).collect();
    let rack = drawn_with(settings, k + 2, &[(hub, mate, level)], &edges);
    let opening = Asked {
        code: 2,
        a: hub as u32,
        b: mate as u32,
        words: Vec::new(),
    };
    (Twin::start(rack), opening)
}

impl Stars {
    /// The opening of a star with each of these lists.
    fn rows(&mut self, k: usize, lists: Vec<Vec<u32>>) -> Verdict {
        let (star, opening) = star((Settings::SHORT, 3, k));
        for words in lists {
            let asked = Asked { words, ..opening };
            let Made { answer, new_pairs } = star.clone().change(&asked)?;
            match (answer.number, answer.draws) {
                (12, _) => self.ran_out.note(k),
                (0, 1) => self.at_once.note(k),
                _ => self.later.note(k),
            }
            let made = usize::from(answer.number == 0);
            same("new pairs of a star", new_pairs, made)?;
            self.most_draws = self.most_draws.max(answer.draws);
        }
        Ok(())
    }

    fn print(&self) {
        println!(
            "{} draws from 1 to {MOST} neighbours, {} or more from each: {} by the first word, {} by a \
             later one, {} without; most words of one {}: equal",
            self.at_once.sum() + self.later.sum() + self.ran_out.sum(),
            self.at_once.least(),
            self.at_once.sum(),
            self.later.sum(),
            self.ran_out.sum(),
            self.most_draws
        );
    }
}
