//! Rises from every level to every higher one at all settings (document 02, W-207),
//! and hubs to which board after board is linked; all worked out by hand for any
//! growth.
//!
//! In a lift to level i board 0 has one neighbour too few for it: board 1, its mate at
//! i-1, and idle boards. Then it is linked to one more board, the last, which stands
//! at a level below i, with a mate of its own if that isn't -1. By this 0 rises to i
//! and draws that board. The former mates have no neighbour to draw and fall to -1.

use super::cases::{play, Case};
use super::makers::drawn_with;
use super::settings::limit;
use super::{holds, same, Tally, Verdict};
use crate::calls::change_rack;
use crate::{sound, Rack, Settings};

/// The most boards of a rack.
const MOST: usize = 256;

struct Lift {
    settings: Settings,
    from: i32,
    to: i32,
}

impl Lift {
    /// The number of the board that is lifted: 0 then has as many neighbours, those up
    /// to it, as the threshold is, less so many.
    fn last(&self, fewer: usize) -> usize {
        limit(self.settings, self.to) - fewer
    }

    fn case(&self, fewer: usize) -> Case {
        let last = self.last(fewer);
        let (low, mated) = (self.to - 1, self.from >= 0);
        let n = last + 1 + usize::from(mated);
        let (mut pairs, mut links) = (Vec::new(), Vec::new());
        if last > 1 {
            pairs.push((0, 1, low));
            links.extend((1..last).map(|v| (0, v)));
        }
        if mated {
            pairs.push((last, last + 1, self.from));
            links.push((last, last + 1));
        }
        let rack = drawn_with(self.settings, n, &pairs, &links);
        links.push((0, last));
        let rises = fewer == 0;
        if rises {
            pairs = vec![(0, last, self.to)];
        }
        Case {
            name: "lift",
            rack,
            change: (1, last as u32, 0),
            words: vec![last as u32 - 1],
            new_pairs: vec![(0, last as u32); usize::from(rises)],
            falls: if rises {
                (self.to + self.from + 1) as u32
            } else {
                0
            },
            after: drawn_with(self.settings, n, &pairs, &links),
        }
    }

    /// The lift, and the same with an idle board fewer, by which nobody rises.
    fn tried(&self, tally: &mut Tally) -> Result<(), String> {
        play(&self.case(0))?;
        tally.stands(self.settings, self.to);
        tally.changes += 1;
        if self.last(1) > 1 {
            play(&self.case(1)).map_err(|why| format!("a board fewer: {why}"))?;
            tally.changes += 1;
        }
        Ok(())
    }
}

/// "The search for a rise stops at the first level, from 3 downwards to one above
/// both ends, that either end's count reaches", with g and t for 4 and 3.
pub fn every_rise(tally: &mut Tally) -> Verdict {
    let mut lifts = 0;
    for settings in Settings::all() {
        for to in 0..=settings.top {
            for from in -1..to.max(0) {
                let lift = Lift { settings, from, to };
                if lift.last(0) + 2 <= MOST {
                    let told = |why| format!("lift from {from} to {to}, {settings:?}: {why}");
                    lift.tried(tally).map_err(told)?;
                    lifts += 1;
                }
            }
        }
    }
    Ok(format!("{lifts} lifts of all settings: ok"))
}

/// Board 0 of 256 is linked to one board after the other, and each time that it rises
/// it draws the last. So with k neighbours it is at the highest level whose threshold
/// k reaches, as far as there is one, and its mate is the board of that number.
pub fn every_hub(tally: &mut Tally) -> Verdict {
    let mut looked = 0;
    for settings in Settings::all() {
        let mut rack = Rack::empty_with(settings, MOST);
        for k in 1..MOST {
            let told = |why| format!("hub of {k}, {settings:?}: {why}");
            one_more(&mut rack, k, tally).map_err(told)?;
            let next = |j| limit(settings, j).abs_diff(k) <= 1;
            if k == MOST - 1 || (0..=settings.top).any(next) {
                let bytes = rack.to_bytes();
                holds("the bytes of a hub", bytes == hub(settings, k)).map_err(told)?;
                holds("a hub is sound", sound(&bytes)).map_err(told)?;
                looked += 1;
            }
        }
    }
    Ok(format!(
        "hubs of all settings, {looked} looked at byte by byte: ok"
    ))
}

/// The level of a hub with k neighbours, -1 with none.
fn level_of(settings: Settings, k: usize) -> i32 {
    let levels = 0..=settings.top;
    levels.filter(|&j| limit(settings, j) <= k).count() as i32 - 1
}

fn one_more(rack: &mut Rack, k: usize, tally: &mut Tally) -> Result<(), String> {
    let [before, after] = [k - 1, k].map(|k| level_of(rack.settings, k));
    let (answer, new_pairs) = change_rack(rack, 1, 0, k as u32, &[k as u32 - 1]);
    tally.note(&answer, new_pairs.len());
    let (number, rises) = (answer.number, usize::from(after > before));
    same("number and pairs", (number, answer.pairs), (0, 1))?;
    same("new pairs", new_pairs, vec![(0, k as u32); rises])?;
    let falls = rises as i32 * (before + 1);
    same("falls", answer.falls as i32, falls)?;
    if rises > 0 {
        tally.stands(rack.settings, after);
    }
    Ok(())
}

/// The bytes of a hub of 256 boards with k neighbours: "counts above t are 0", and at
/// the levels above its own, up to t, all neighbours count for it, and it for each of
/// them.
fn hub(settings: Settings, k: usize) -> Vec<u8> {
    let level = level_of(settings, k);
    let mate = limit(settings, level);
    let mut bytes = vec![0; 10_152];
    bytes[..8].copy_from_slice(&[
        0,
        1,
        k as u8,
        0,
        settings.growth as u8,
        settings.top as u8,
        0,
        0,
    ]);
    bytes[264..776].fill(255);
    for (v, w) in [(0, mate), (mate, 0)] {
        bytes[8 + v] = level as u8 + 1;
        bytes[264 + 2 * v] = w as u8;
        bytes[265 + 2 * v] = 0;
    }
    for j in (level + 1..=settings.top).map(|j| j as usize) {
        bytes[776 + j] = k as u8;
        for v in 1..=k {
            bytes[776 + 4 * v + j] = 1;
        }
    }
    for v in 0..MOST {
        let bit = 1 << (v % 8);
        let at = if v == 0 || v == mate { level + 1 } else { 0 };
        bytes[9_992 + 32 * at as usize + v / 8] |= bit;
        if 1 <= v && v <= k {
            bytes[1_800 + v / 8] |= bit;
        }
    }
    bytes
}
