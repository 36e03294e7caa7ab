//! The moves that follow when a vertex rises or a pair is parted.
//!
//! Two facts carry most of the speed. A vertex owns all its edges to lower
//! ranks once it has handed over those to its own rank, so its out-row is the
//! list from which it draws. And phi at a level less the size of the out-row
//! says how many edges a rise still has to take from other owners, so that
//! the search for them ends early or does not begin. The rosters tell which
//! edges are handed over and among whom the owners are.
//!
//! What a move needs only at times is not inlined, so that the rest keeps more
//! in registers; draws always are, and rises too. With the feature `apart` rises, and
//! the partings before them, are not, so that a tool can count takings without them.

use crate::bits::{self, Row};
use crate::draws::Places;
use crate::layout::{
    disown, levels_from, mate, near_owners, own, owns, phi, phi_at, rank, roster, row, set_mate,
    set_phi, set_rank, set_row, RackBytes, FREE, ONES,
};
use crate::moves::Tally;
use crate::queues::{self, Queues};
use crate::settings::{Setting, REACHED};

/// A change in play. Pending vertices stand in one queue a rank, so that none
/// has to be looked for.
pub struct Play<'a, P> {
    rack: &'a mut RackBytes,
    setting: &'static Setting,
    places: P,
    queues: Queues,
    pub tally: Tally,
}

impl<P: Places> Play<'_, P> {
    pub fn start<'a>(
        rack: &'a mut RackBytes,
        setting: &'static Setting,
        places: P,
        pairs: u32,
    ) -> Play<'a, P> {
        Play {
            rack,
            setting,
            places,
            queues: Queues::start(),
            tally: Tally::start(pairs),
        }
    }

    /// The pair a-b of this rank is parted, and both pend, the lower number first.
    pub fn part(&mut self, a: u8, b: u8, rank: u8) {
        for v in [a.min(b), a.max(b)] {
            self.queues.join(self.rack, v, rank);
        }
        self.tally.pairs -= 1;
    }

    /// Before a vertex rises it leaves its mate, who then pends as the last of
    /// that rank; one that pends itself no longer does.
    #[cfg_attr(feature = "apart", inline(never))]
    fn leave(&mut self, v: u8) {
        let rank = rank(self.rack, v);
        if rank == 0 {
            return;
        }
        let mate = mate(self.rack, v);
        if queues::pends(mate) {
            return self.leave_queue(v, rank);
        }
        self.queues.join(self.rack, mate as u8, rank);
        self.tally.pairs -= 1;
    }

    /// A pending vertex no longer pends.
    #[inline(never)]
    fn leave_queue(&mut self, v: u8, rank: u8) {
        self.queues.leave(self.rack, v, rank);
    }

    #[cfg_attr(feature = "apart", inline(never))]
    pub fn rise_and_draw(&mut self, u: u8, to: u8) {
        self.leave(u);
        let candidates = self.rise(u, to);
        self.draw(u, to, candidates);
    }

    /// Vertex u rises to a rank and becomes the owner of its edges to all
    /// lower ones; the answer is how many these are. Each such neighbour no
    /// longer counts u at the levels below the rank.
    #[cfg_attr(feature = "apart", inline(never))]
    #[cfg_attr(not(feature = "apart"), inline(always))]
    fn rise(&mut self, u: u8, to: u8) -> u32 {
        let (from, counts) = (rank(self.rack, u), phi(self.rack, u));
        let below = (counts >> (8 * (to - 1))) & 255;
        let passed = ONES >> (32 - 8 * u32::from(to));
        let uncounted = levels_from(from) & passed;
        let mut owned = 0;
        let rack = &mut *self.rack;
        bits::each(&row(rack, u), |w| {
            set_phi(rack, w, phi(rack, w) - uncounted);
            owned += 1;
        });
        if owned < below {
            self.take_over(u, to, below - owned);
        }
        set_rank(self.rack, u, from, to);
        set_phi(self.rack, u, counts & !(passed * 255));
        below
    }

    /// Takes so many edges to vertices below a rank from their owners, none of
    /// which stands below u: they are in the rosters from u's rank on.
    #[inline(never)]
    fn take_over(&mut self, u: u8, to: u8, missing: u32) {
        let passed = ONES >> (32 - 8 * u32::from(to));
        let least = rank(self.rack, u).max(1);
        let mut missing = missing;
        for rank in least..to {
            let uncounted = levels_from(rank) & passed;
            for (k, &word) in roster(self.rack, rank).iter().enumerate() {
                let mut left = word;
                if few_sought(word, missing) {
                    left = near_owners(self.rack, u, k, word);
                }
                while left != 0 {
                    let w = bits::vertex(k, left);
                    left &= left - 1;
                    if owns(self.rack, w, u) {
                        self.take_from(w, u, uncounted);
                        missing -= 1;
                        if missing == 0 {
                            return;
                        }
                    }
                }
            }
        }
    }

    /// Vertex u takes its edge from its owner w, which then no longer counts u.
    #[inline(always)]
    fn take_from(&mut self, w: u8, u: u8, uncounted: u32) {
        disown(self.rack, w, u);
        own(self.rack, u, w);
        set_phi(self.rack, w, phi(self.rack, w) - uncounted);
    }

    /// Vertex u at a rank draws one of the candidates in its out-row, which
    /// rises to that rank and becomes its mate.
    #[inline(always)]
    fn draw(&mut self, u: u8, at: u8, candidates: u32) {
        let place = self.places.next(candidates);
        let y = bits::nth(&row(self.rack, u), place);
        self.leave(y);
        self.rise(y, at);
        set_mate(self.rack, u, u16::from(y));
        set_mate(self.rack, y, u16::from(u));
        self.tally.draws += 1;
        self.tally.pairs += 1;
    }

    /// While any vertex pends, takes the one of the highest rank that has pended
    /// there longest. Meanwhile no other one joins or leaves the queue of that
    /// rank or a higher one.
    pub fn settle(&mut self, highest: u8) {
        let mut rank = highest;
        while rank != 0 {
            let mut next = self.queues.first(rank);
            while let Some(v) = queues::vertex(next) {
                next = mate(self.rack, v);
                self.take(v, rank);
            }
            rank -= 1;
        }
    }

    /// A pending vertex hands over and then draws if it has neighbours enough
    /// below its rank, and otherwise falls.
    fn take(&mut self, v: u8, at: u8) {
        let mut row = row(self.rack, v);
        self.hand_over(v, at, &mut row);
        let below = bits::size(&row);
        if below >= self.setting.threshold(at) {
            self.draw(v, at, below);
        } else {
            self.fall(v, at, &row, below);
        }
    }

    /// Vertex v gives its edges within its rank to their other ends, and they go
    /// out of its row.
    #[inline(always)]
    fn hand_over(&mut self, v: u8, at: u8, row: &mut Row) {
        let roster = roster(self.rack, at);
        let mut any = 0;
        for (k, word) in row.iter_mut().enumerate() {
            let within = *word & roster[k];
            bits::each_of(k, within, |w| own(self.rack, w, v));
            *word ^= within;
            any |= within;
        }
        if any != 0 {
            set_row(self.rack, v, row);
        }
    }

    /// Vertex v falls by one rank, and there it pends at once, but not on rank 0.
    /// All in its out-row count it once more at the level left; if some thereby
    /// reach the threshold, the row is then gone through in order, and those rise
    /// that still reach it when their turn comes, for an earlier rise may have
    /// lowered their count.
    fn fall(&mut self, v: u8, from: u8, row: &Row, below: u32) {
        let level = 8 * (u32::from(from) - 1);
        set_rank(self.rack, v, from, from - 1);
        self.tally.falls += 1;
        if from > 1 {
            self.queues.join(self.rack, v, from - 1);
        } else {
            set_mate(self.rack, v, FREE);
        }
        if below == 0 {
            return;
        }
        set_phi(self.rack, v, phi(self.rack, v) | below << level);
        let (setting, one) = (self.setting, 1 << level);
        let reached = if setting.bits != 0 {
            self.count_more(row, one, u64::from) & u64::from(setting.bits)
        } else {
            self.count_more(row, one, |phi| setting.lifted(phi)) & REACHED
        };
        // The bit that tells of this level is among these nine, and no other level's.
        if reached & (511 << level) != 0 {
            self.scan(row, from);
        }
    }

    /// All in a row count so many more. The answer is each bit that stands in what
    /// some of their counts are then made into.
    #[inline(always)]
    fn count_more(&mut self, row: &Row, more: u32, made: impl Fn(u32) -> u64) -> u64 {
        let mut any = 0;
        bits::each(row, |w| {
            let counts = phi(self.rack, w) + more;
            set_phi(self.rack, w, counts);
            any |= made(counts);
        });
        any
    }

    fn scan(&mut self, row: &Row, to: u8) {
        let threshold = self.setting.threshold(to) as u8;
        bits::each(row, |w| {
            if phi_at(self.rack, w, to - 1) == threshold {
                self.rise_and_draw(w, to);
            }
        });
    }
}

/// Whether so few of the vertices in a word can be owners, with so many edges
/// missing, that it pays to leave out groups of them beforehand. The figures were
/// found by measuring.
fn few_sought(word: u64, missing: u32) -> bool {
    word.count_ones() > 24 && word.count_ones() > 8 * missing
}
