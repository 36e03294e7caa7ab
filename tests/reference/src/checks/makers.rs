//! Makers of racks: from a list written by hand, and sound racks at random,
//! among them those to which no list of changes from an empty rack leads.

use super::random::Random;
use super::settings;
use crate::{Rack, Settings};
use std::ops::RangeInclusive;

/// A rack by the short form of making, from its pairs with their levels and from its
/// links as owner and other end. Pairs must be among the links.
pub fn drawn(n: usize, pairs: &[(usize, usize, i32)], links: &[(usize, usize)]) -> Rack {
    drawn_with(Settings::SHORT, n, pairs, links)
}

/// The same at any settings.
pub fn drawn_with(
    settings: Settings,
    n: usize,
    pairs: &[(usize, usize, i32)],
    links: &[(usize, usize)],
) -> Rack {
    let mut rack = Rack::empty_with(settings, n);
    for &(a, b, level) in pairs {
        rack.level[a] = level;
        rack.level[b] = level;
        rack.mate[a] = Some(b);
        rack.mate[b] = Some(a);
    }
    for &(v, w) in links {
        rack.owner[v][w] = true;
    }
    rack
}

/// A sound rack at random. Pairs and their levels are thrown first; then all
/// other two boards come in random order, and a link is put in if it is
/// wanted and no count would reach its threshold. Every sound rack of these settings
/// may come.
/// At times a board also gets too few neighbours below its level to stay there
/// without a mate, so that parting a pair makes many boards fall.
pub fn sound_rack(random: &mut Random, settings: Settings, n: usize) -> Rack {
    let mut maker = Maker::pairs(random, settings, n);
    let fullness = random.pick(&[0, 10, 30, 60, 90, 100]);
    let mut others: Vec<(usize, usize)> =
        (0..n).flat_map(|v| (0..v).map(move |w| (v, w))).collect();
    random.shuffle(&mut others);
    for (v, w) in others {
        if maker.rack.mate[v] != Some(w) && random.percent(fullness) && maker.has_room(v, w) {
            maker.put(random, v, w);
        }
    }
    maker.rack
}

struct Maker {
    rack: Rack,
    counts: Vec<[usize; 4]>,
    /// The neighbours of each board below its own level.
    lower: Vec<usize>,
    brittle: bool,
}

impl Maker {
    /// Random pairs on random levels with their links.
    fn pairs(random: &mut Random, settings: Settings, n: usize) -> Maker {
        let mut maker = Maker {
            rack: Rack::empty_with(settings, n),
            counts: vec![[0; 4]; n],
            lower: vec![0; n],
            brittle: random.percent(50),
        };
        let mut order: Vec<usize> = (0..n).collect();
        random.shuffle(&mut order);
        let share = random.pick(&[25, 50, 75, 95, 100]);
        let levels = random.pick(&LEVEL_LISTS);
        for two in order.chunks_exact(2) {
            if random.percent(share) {
                let level = random.pick(levels).min(settings.top);
                maker.pair(random, two[0], two[1], level);
            }
        }
        maker
    }

    fn pair(&mut self, random: &mut Random, a: usize, b: usize, level: i32) {
        for (v, w) in [(a, b), (b, a)] {
            self.rack.level[v] = level;
            self.rack.mate[v] = Some(w);
        }
        self.put(random, a, b);
    }

    /// The levels at which a link v-w counts for its ends.
    fn counted(&self, v: usize, w: usize) -> RangeInclusive<i32> {
        let above = self.rack.level[v].max(self.rack.level[w]) + 1;
        above..=self.rack.settings.top
    }

    fn has_room(&self, v: usize, w: usize) -> bool {
        let limit = |j| settings::limit(self.rack.settings, j);
        let (high, low) = self.by_level(v, w);
        let level = self.rack.level[high];
        if self.brittle && level > self.rack.level[low] {
            let stays = self.lower[high] + 1 >= limit(level);
            if stays {
                return false;
            }
        }
        let most = |j: i32| self.counts[v][j as usize].max(self.counts[w][j as usize]);
        self.counted(v, w).all(|j| most(j) + 1 < limit(j))
    }

    /// Puts a link in; on equal levels either end may be the owner.
    fn put(&mut self, random: &mut Random, v: usize, w: usize) {
        for j in self.counted(v, w) {
            self.counts[v][j as usize] += 1;
            self.counts[w][j as usize] += 1;
        }
        let (high, low) = self.by_level(v, w);
        if self.rack.level[high] > self.rack.level[low] {
            self.lower[high] += 1;
            self.rack.owner[high][low] = true;
        } else if random.percent(50) {
            self.rack.owner[high][low] = true;
        } else {
            self.rack.owner[low][high] = true;
        }
    }

    /// Two boards with one of the higher level first.
    fn by_level(&self, v: usize, w: usize) -> (usize, usize) {
        if self.rack.level[v] < self.rack.level[w] {
            (w, v)
        } else {
            (v, w)
        }
    }
}

/// Lists of levels to throw a pair's level from; one above the top level stands for
/// that.
const LEVEL_LISTS: [&[i32]; 10] = [
    &[0],
    &[0, 1],
    &[1],
    &[0, 0, 0, 1, 1, 2],
    &[0, 1, 2],
    &[0, 1, 2, 3],
    &[0, 0, 1, 2, 3, 3],
    &[2, 3],
    &[2, 2, 2, 2, 2, 3],
    &[0, 1, 1, 1, 2, 2, 2, 2, 2, 2, 3, 3],
];
