//! Stars: fair draws (document 02, W-206) among every number of neighbours, and falls
//! from every level to every lower one at all settings (W-207).
//!
//! A star has k idle boards around board 0, which has board 1 as its mate at a level.
//! When 0-1 is dropped, 0 falls to the highest level whose threshold k reaches and
//! draws from those k there; 1 falls to -1. No drop draws from more than 254: a rack
//! has 256 boards, and the former mate of the one that draws is no longer linked to
//! it.

use super::makers::drawn_with;
use super::settings::limit;
use super::{holds, same, Tally, Verdict};
use crate::calls::change_rack;
use crate::words::place;
use crate::{sound, Answer, Rack, Settings};

/// The most boards around a star.
pub const MOST: usize = 254;

/// How many words there are, 2^32.
const ALL: u64 = 1 << 32;

/// A star of the short form with k boards around, whose pair is at 3.
pub fn star(k: usize) -> Rack {
    Star::short(k).rack()
}

/// A star of any settings, with the level of its pair and k boards around.
struct Star {
    settings: Settings,
    level: i32,
    k: usize,
}

/// "For k neighbours let T be the largest multiple of k that is at most 2^32."
fn largest_multiple(k: usize) -> u64 {
    let multiple = |t: &u64| t.is_multiple_of(k as u64);
    (0..=ALL).rev().find(multiple).expect("0 is a multiple")
}

/// "A word below T chooses place word mod k; a word of T or more is used up": looked
/// at for the first k words, the last k below T, and all from T on. "Of all 2^32
/// words, each place must be chosen by exactly T divided by k of them": every k
/// words in a row choose each place once.
pub fn every_place(_: &mut Tally) -> Verdict {
    let mut passed = 0;
    for k in 1..=255 {
        let t = largest_multiple(k);
        let each: Vec<_> = (0..k).map(Some).collect();
        same(&format!("the first {k}"), places(0, k), each.clone())?;
        same(&format!("{k} below T"), places(t - k as u64, k), each)?;
        let over = (t..ALL).filter(|&word| place(word as u32, k).is_none());
        same(&format!("from T for {k}"), over.count() as u64, ALL - t)?;
        passed += ALL - t;
    }
    Ok(format!(
        "{passed} words passed over for 1 to 255 neighbours: ok"
    ))
}

/// The places that k words in a row choose.
fn places(first: u64, k: usize) -> Vec<Option<usize>> {
    let words = first..first + k as u64;
    words.map(|word| place(word as u32, k)).collect()
}

/// Every star with words around T.
pub fn every_star(tally: &mut Tally) -> Verdict {
    let earlier = tally.clone();
    for k in 1..=MOST {
        around_t(k, tally).map_err(|why| format!("star of {k}, {why}"))?;
    }
    let tried = tally.since(&earlier, &[0, 12])?;
    let passing = tally.passing - earlier.passing;
    Ok(format!(
        "{tried}, {passing} passed words over, on stars of 1 to {MOST}: ok"
    ))
}

fn around_t(k: usize, tally: &mut Tally) -> Result<(), String> {
    let t = largest_multiple(k);
    let around = [t - 1, t, t + 1, ALL - 2, ALL - 1];
    for word in around.into_iter().filter(|&word| word < ALL) {
        let told = |why| format!("word {word}: {why}");
        one_star(k, word as u32, word < t, tally).map_err(told)?;
    }
    Ok(())
}

/// A word that chooses or doesn't, with another after it, before it, and alone.
fn one_star(k: usize, word: u32, chooses: bool, tally: &mut Tally) -> Result<(), String> {
    let (star, own) = (Star::short(k), word as usize % k);
    if chooses {
        star.opened(&[word], Some((1, own)), tally)?;
        star.opened(&[word, 0], Some((1, own)), tally)?;
    } else {
        star.opened(&[word], None, tally)?;
        star.opened(&[word, 1], Some((2, 1 % k)), tally)?;
        star.opened(&[word, word], None, tally)?;
    }
    star.opened(&[1, word], Some((1, 1 % k)), tally)
}

/// "k is at least 4^i", with g for 4: at all settings, stars of every level with as
/// many boards around as a threshold up to that level, and with one fewer.
pub fn every_fall(tally: &mut Tally) -> Verdict {
    let earlier = tally.clone();
    for settings in Settings::all() {
        for level in 0..=settings.top {
            for k in ends(settings, level) {
                let star = Star { settings, level, k };
                let told = |why| format!("star of {k} at {level}, {settings:?}: {why}");
                star.parted(tally).map_err(told)?;
            }
        }
    }
    let tried = tally.since(&earlier, &[0, 12])?;
    Ok(format!("{tried}, on stars of all settings: ok"))
}

/// The numbers of boards at which a star of this level lands on another level, as
/// far as it is sound: the mate counts too at the levels above.
fn ends(settings: Settings, level: i32) -> Vec<usize> {
    let most = match level == settings.top {
        true => MOST,
        false => MOST.min(limit(settings, level + 1) - 2),
    };
    let thresholds = (0..=level).map(|j| limit(settings, j));
    let mut ends: Vec<usize> = thresholds.flat_map(|k| [k - 1, k]).collect();
    ends.push(most);
    ends.retain(|&k| k <= most);
    ends
}

impl Star {
    fn short(k: usize) -> Star {
        let settings = Settings::SHORT;
        let level = settings.top;
        Star { settings, level, k }
    }

    fn rack(&self) -> Rack {
        let links: Vec<(usize, usize)> = (1..self.k + 2).map(|v| (0, v)).collect();
        drawn_with(self.settings, self.k + 2, &[(0, 1, self.level)], &links)
    }

    /// Where board 0 lands: the highest level up to its own whose threshold k reaches.
    fn landing(&self) -> i32 {
        let reached = |&i: &i32| self.k >= limit(self.settings, i);
        (0..=self.level).rev().find(reached).unwrap_or(-1)
    }

    /// The drop of 0-1, which uses so many words and draws from this place, or runs
    /// out of words.
    fn opened(
        &self,
        words: &[u32],
        wanted: Option<(u64, usize)>,
        tally: &mut Tally,
    ) -> Result<(), String> {
        let mut rack = self.rack();
        let (answer, new_pairs) = change_rack(&mut rack, 2, 0, 1, words);
        tally.note(&answer, new_pairs.len());
        let Some((draws, place)) = wanted else {
            same("answer", answer, Answer::refused(12))?;
            return holds("the rack stays", rack == self.rack());
        };
        let landing = self.landing();
        let wanted = Answer {
            number: 0,
            draws,
            falls: (2 * self.level + 1 - landing) as u32,
            pairs: draws.min(1) as u32,
        };
        same("answer", answer, wanted)?;
        let links: Vec<(usize, usize)> = (2..self.k + 2).map(|v| (0, v)).collect();
        let pair = [(0, 2 + place, landing)];
        let pairs = &pair[..wanted.pairs as usize];
        let after = drawn_with(self.settings, self.k + 2, pairs, &links);
        holds("the rack after it", rack == after)?;
        if landing >= 0 {
            tally.stands(self.settings, landing);
        }
        Ok(())
    }

    /// The drop with a word for the last place, and without any word.
    fn parted(&self, tally: &mut Tally) -> Result<(), String> {
        holds("the star is sound", sound(&self.rack().to_bytes()))?;
        if self.k == 0 {
            return self.opened(&[], Some((0, 0)), tally);
        }
        self.opened(&[], None, tally)?;
        let last = self.k - 1;
        self.opened(&[last as u32], Some((1, last)), tally)
    }
}
