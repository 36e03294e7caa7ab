//! The words of the rack: boards, links with an owner, levels, mates, counts, and
//! the settings that a rack is made with.

/// The lowest level of a board, and the highest at any settings.
pub const LOWEST: i32 = -1;
pub const HIGHEST: i32 = 3;

/// "A rack is made with growth g from 2 to 8 and top level t from 0 to 3" (document
/// 02, W-207).
#[derive(Clone, Copy, Debug, PartialEq, Eq, PartialOrd, Ord)]
pub struct Settings {
    pub growth: usize,
    pub top: i32,
}

impl Settings {
    /// "the short line means 4 and 3. The short form of making gives 4 and 3 also."
    /// (W-207)
    pub const SHORT: Settings = Settings { growth: 4, top: 3 };

    /// The settings asked for; none if one of them is outside its range.
    pub fn of(growth: u32, top: u32) -> Option<Settings> {
        if !(2..=8).contains(&growth) || top > 3 {
            return None;
        }
        Some(Settings {
            growth: growth as usize,
            top: top as i32,
        })
    }

    /// All settings that there are.
    pub fn all() -> impl Iterator<Item = Settings> {
        let of_growth = |growth| (0..=3).filter_map(move |top| Settings::of(growth, top));
        (2..=8).flat_map(of_growth)
    }

    /// "The threshold at j is g to the power j" (W-207).
    pub fn threshold(self, j: i32) -> usize {
        let mut power = 1;
        for _ in 0..j {
            power *= self.growth;
        }
        power
    }
}

/// A rack as the paper speaks of it. `owner[v][w]` says that v owns the link
/// v-w, so a link is there if one of `owner[v][w]` and `owner[w][v]` is set.
#[derive(Clone, Debug, PartialEq, Eq)]
pub struct Rack {
    pub n: usize,
    pub settings: Settings,
    pub owner: Vec<Vec<bool>>,
    pub level: Vec<i32>,
    pub mate: Vec<Option<usize>>,
}

impl Rack {
    /// A rack of n boards by the short form of making.
    pub fn empty(n: usize) -> Rack {
        Rack::empty_with(Settings::SHORT, n)
    }

    /// A rack of n boards without links; every board is idle at level -1.
    pub fn empty_with(settings: Settings, n: usize) -> Rack {
        Rack {
            n,
            settings,
            owner: vec![vec![false; n]; n],
            level: vec![LOWEST; n],
            mate: vec![None; n],
        }
    }

    /// "A link joins two different boards, at most once."
    pub fn linked(&self, v: usize, w: usize) -> bool {
        self.owner[v][w] || self.owner[w][v]
    }

    /// The number of links, each counted once.
    pub fn link_number(&self) -> usize {
        let mut number = 0;
        for v in 0..self.n {
            for w in 0..v {
                if self.linked(v, w) {
                    number += 1;
                }
            }
        }
        number
    }

    /// The neighbours of v whose level is below i, by rising number.
    pub fn neighbours_below(&self, v: usize, i: i32) -> Vec<usize> {
        (0..self.n)
            .filter(|&w| self.linked(v, w) && self.level[w] < i)
            .collect()
    }

    /// "The count of board v at j (0 to 3) is the number of neighbours whose
    /// level is below j if j is above v's level, and otherwise 0." And: "counts
    /// above t are 0" (document 02, W-207).
    pub fn count(&self, v: usize, j: i32) -> usize {
        if j > self.level[v] && j <= self.settings.top {
            self.neighbours_below(v, j).len()
        } else {
            0
        }
    }

    /// "the number of boards at a level, 0 for a level outside -1 to 3" (document
    /// 02, W-205), where no board stands.
    pub fn standing(&self, level: i32) -> usize {
        (0..self.n).filter(|&v| self.level[v] == level).count()
    }

    /// "each count at j is below 4^j", "with g and t for 4 and 3" (document 02,
    /// W-207), fails for this board and level: the count reaches the threshold.
    pub fn reaches(&self, v: usize, j: i32) -> bool {
        self.count(v, j) >= self.settings.threshold(j)
    }

    /// "at most one mate; without one it is idle."
    pub fn idle(&self, v: usize) -> bool {
        self.mate[v].is_none()
    }

    /// "A board is waiting if it is idle at level 0 or more."
    pub fn waiting(&self, v: usize) -> bool {
        self.idle(v) && self.level[v] >= 0
    }

    /// The pairs held, each as lower and higher board, by rising lower board.
    pub fn pairs(&self) -> Vec<(usize, usize)> {
        let mut pairs = Vec::new();
        for v in 0..self.n {
            if let Some(w) = self.mate[v] {
                if v < w {
                    pairs.push((v, w));
                }
            }
        }
        pairs
    }
}
