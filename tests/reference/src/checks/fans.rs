//! Fans: racks in which one drop sets off draws and falls by the dozen, worked
//! out by hand for any size, and random changes on them.
//!
//! In a fan for level i the boards 0 and 1 are a pair at i. Board 0 is linked
//! to the ribs; a rib stands at i-1 and has g^i - 1 neighbours below i: the
//! core, which all ribs share, and three boards of its own, of which the first
//! is its mate and the other two are a pair. All these are at i-1, and the core
//! is made of pairs; if it is odd, its last board has a mate that is no rib's
//! neighbour. When 0-1 is dropped, board 0 has too few neighbours to stay, and by
//! its fall the count of every rib reaches g^i. If each rib then draws the second
//! of its own boards, it takes nothing from the other ribs, so all of them rise.
//! The boards left without a mate have no neighbour to draw and fall to -1.

use super::makers::drawn_with;
use super::random::Random;
use super::settings::limit;
use super::walk::Walk;
use super::{holds, same, Tally, Verdict};
use crate::{change_with_pairs, sound, Rack, Settings};

/// The level and the most ribs of the fans of the short form.
const FANS: [(i32, usize); 3] = [(1, 3), (2, 14), (3, 48)];

struct Fan {
    settings: Settings,
    level: i32,
    ribs: usize,
}

impl Fan {
    fn core(&self) -> std::ops::Range<usize> {
        2..2 + limit(self.settings, self.level) - 4
    }

    /// The number of rib r; its own boards are the three numbers after it.
    fn rib(&self, r: usize) -> usize {
        self.core().end.next_multiple_of(2) + 4 * r
    }

    fn boards(&self) -> usize {
        self.rib(self.ribs)
    }

    /// The place of the second own board among a rib's neighbours: after
    /// board 0, the core and the first own board.
    fn place(&self) -> u32 {
        self.core().len() as u32 + 2
    }

    fn core_pairs(&self) -> Vec<(usize, usize, i32)> {
        let low = self.level - 1;
        self.core().step_by(2).map(|c| (c, c + 1, low)).collect()
    }

    fn rack(&self) -> Rack {
        let low = self.level - 1;
        let mut pairs = self.core_pairs();
        let mut links: Vec<(usize, usize)> = pairs.iter().map(|&(c, d, _)| (c, d)).collect();
        pairs.push((0, 1, low + 1));
        links.push((0, 1));
        for rib in (0..self.ribs).map(|r| self.rib(r)) {
            pairs.extend([(rib, rib + 1, low), (rib + 2, rib + 3, low)]);
            links.extend([(0, rib), (rib + 2, rib + 3)]);
            links.extend((1..4).map(|own| (rib, rib + own)));
            links.extend(self.core().map(|c| (c, rib)));
        }
        drawn_with(self.settings, self.boards(), &pairs, &links)
    }

    /// The rack after the drop of 0-1 in which every rib drew its second own
    /// board.
    fn after(&self) -> Rack {
        let mut pairs = self.core_pairs();
        let mut links: Vec<(usize, usize)> = pairs.iter().map(|&(c, d, _)| (c, d)).collect();
        for rib in (0..self.ribs).map(|r| self.rib(r)) {
            pairs.push((rib, rib + 2, self.level));
            links.extend([(rib, 0), (rib + 2, rib + 3)]);
            links.extend((1..4).map(|own| (rib, rib + own)));
            links.extend(self.core().map(|c| (rib, c)));
        }
        drawn_with(self.settings, self.boards(), &pairs, &links)
    }

    /// Boards 0 and 1 fall from i to -1, two own boards of each rib from i-1.
    fn falls(&self) -> usize {
        let level = self.level as usize;
        2 * (level + 1) + 2 * self.ribs * level
    }

    /// The drop, and random changes after it.
    fn tried(&self, tally: &mut Tally) -> Result<(), String> {
        let Fan { level, ribs, .. } = self;
        opened(self, tally).map_err(|why| format!("fan {level} {ribs}: {why}"))?;
        wander(self, tally)
    }
}

pub fn fans(tally: &mut Tally) -> Verdict {
    let earlier = tally.clone();
    let settings = Settings::SHORT;
    for (level, most) in FANS {
        for ribs in 1..=most {
            let fan = Fan {
                settings,
                level,
                ribs,
            };
            fan.tried(tally)?;
        }
    }
    same("new pairs of the largest fan", tally.most_new_pairs, 48)?;
    same("falls of the largest fan", tally.most_falls, 296)?;
    for settings in Settings::all() {
        for level in 1..=settings.top {
            for ribs in few_and_most(settings, level) {
                let fan = Fan {
                    settings,
                    level,
                    ribs,
                };
                let told = |why| format!("{settings:?}, {why}");
                fan.tried(tally).map_err(told)?;
            }
        }
    }
    Ok(format!(
        "{} from fans: ok",
        tally.walked_since(&earlier, &[0])?
    ))
}

/// One rib, two, and as many as there may be: a board of the core counts its mate and
/// the ribs, and 0, which is to fall, counts the ribs. None if the threshold is below
/// four, so that a rib hasn't room for its own boards, or if there is no room for one.
fn few_and_most(settings: Settings, level: i32) -> Vec<usize> {
    let threshold = limit(settings, level);
    let core = match threshold.checked_sub(4) {
        Some(core) => core.next_multiple_of(2),
        None => return Vec::new(),
    };
    let room = 254_usize.saturating_sub(core) / 4;
    let most = room.min(threshold - 2);
    let mut ribs = vec![1, 2, most];
    ribs.retain(|&ribs| 0 < ribs && ribs <= most);
    ribs.dedup();
    ribs
}

/// The drop with words that make every rib draw its second own board.
fn opened(fan: &Fan, tally: &mut Tally) -> Result<(), String> {
    let mut bytes = fan.rack().to_bytes();
    holds("the fan is sound", sound(&bytes))?;
    let words = vec![fan.place(); fan.boards() / 2];
    let (answer, pairs) = change_with_pairs(&mut bytes, 2, 0, 1, &words);
    let ribs = (0..fan.ribs).map(|r| fan.rib(r) as u32);
    let wanted: Vec<(u32, u32)> = ribs.map(|rib| (rib, rib + 2)).collect();
    same("new pairs", &pairs, &wanted)?;
    same("draws", answer.draws as usize, fan.ribs)?;
    same("falls", answer.falls as usize, fan.falls())?;
    same(
        "pairs",
        answer.pairs as usize,
        fan.core().len().div_ceil(2) + fan.ribs,
    )?;
    holds("the bytes after it", bytes == fan.after().to_bytes())?;
    tally.note(&answer, pairs.len());
    Ok(())
}

/// The same drop with a few other words, and random changes after it.
fn wander(fan: &Fan, tally: &mut Tally) -> Result<(), String> {
    let seed = 0xfa00_0000 + 100 * fan.level as u64 + fan.ribs as u64;
    let mut random = Random::new(seed);
    let name = format!("fan {} {}, seed {seed:#x}", fan.level, fan.ribs);
    let mut walk = Walk::start(fan.rack().to_bytes(), name)?;
    let mut words = vec![fan.place(); fan.boards() / 2];
    for word in &mut words {
        if random.percent(20) {
            *word = random.word();
        }
    }
    walk.change(2, 1, 0, &words, tally)?;
    for _ in 0..6 {
        walk.random_change(&mut random, 45, fan.boards(), tally)?;
    }
    Ok(())
}
