//! The elementary moves, the settling, and what an add and a drop do.

use crate::queues::{Order, Queues};
use crate::rack::Rack;
use crate::words::{OutOfWords, Words};

/// One change in play: a copy of the rack, the words lent, the boards that wait,
/// and what happened so far.
pub struct Play<'a> {
    rack: Rack,
    words: Words<'a>,
    queues: Queues,
    falls: usize,
    new_pairs: Vec<(usize, usize)>,
}

/// What a change did: the rack after it, the words it used, its falls, and the u
/// and the y of each of its draws in order. "The draws figure counts words used,
/// passed-over ones included" (document 02, W-206).
#[derive(Clone, Debug, PartialEq, Eq)]
pub struct Done {
    pub rack: Rack,
    pub draws: usize,
    pub falls: usize,
    pub new_pairs: Vec<(usize, usize)>,
}

/// A move made whole, or broken off where its words ran out: "A change is carried
/// out only if its words suffice" (document 02, W-206).
type Moved = Result<(), OutOfWords>;

/// Adds the link a-b, which isn't there, to a copy of a sound rack. "The riser's
/// pair, if any, is parted; it rises, it draws, the settling follows."
pub fn add(
    rack: &Rack,
    a: usize,
    b: usize,
    words: &[u32],
    order: Order,
) -> Result<Done, OutOfWords> {
    let mut play = Play::start(rack, words, order);
    play.put_link(a, b);
    if let Some((u, i)) = play.search_for_a_rise(a, b) {
        play.lose_mate(u);
        play.rise(u, i);
        play.draw(u, i)?;
        play.settle()?;
    }
    Ok(play.finish())
}

/// Drops the link a-b, which is there, from a copy of a sound rack. "If its ends
/// were mates, part them and settle. Otherwise no level changes." And: "Parting by
/// a drop puts the lower number first." (document 02, W-203)
pub fn drop(
    rack: &Rack,
    a: usize,
    b: usize,
    words: &[u32],
    order: Order,
) -> Result<Done, OutOfWords> {
    let mut play = Play::start(rack, words, order);
    play.rack.owner[a][b] = false;
    play.rack.owner[b][a] = false;
    if play.rack.mate[a] == Some(b) {
        play.part(a, b);
        play.wait(a.min(b));
        play.wait(a.max(b));
        play.settle()?;
    }
    Ok(play.finish())
}

impl Play<'_> {
    fn start<'a>(rack: &Rack, words: &'a [u32], order: Order) -> Play<'a> {
        Play {
            rack: rack.clone(),
            words: Words::lent(words),
            queues: Queues::empty(order),
            falls: 0,
            new_pairs: Vec::new(),
        }
    }

    fn finish(self) -> Done {
        debug_assert!(
            self.queues.are_empty() && self.queues.list_the_waiting(&self.rack),
            "a board waits after a change"
        );
        Done {
            rack: self.rack,
            draws: self.words.used(),
            falls: self.falls,
            new_pairs: self.new_pairs,
        }
    }

    /// "Add: the owner is the end of higher level, on equal levels the lower
    /// number."
    fn put_link(&mut self, a: usize, b: usize) {
        let (low, high) = (a.min(b), a.max(b));
        if self.rack.level[high] > self.rack.level[low] {
            self.rack.owner[high][low] = true;
        } else {
            self.rack.owner[low][high] = true;
        }
    }

    /// "The search for a rise stops at the first level, from 3 downwards to
    /// one above both ends, that either end's count reaches. None: finished.
    /// If both reach it, the lower number rises." And: "levels stop at t" (document
    /// 02, W-207).
    fn search_for_a_rise(&self, a: usize, b: usize) -> Option<(usize, i32)> {
        let above_both = self.rack.level[a].max(self.rack.level[b]) + 1;
        let mut i = self.rack.settings.top;
        while i >= above_both {
            for end in [a.min(b), a.max(b)] {
                if self.rack.reaches(end, i) {
                    return Some((end, i));
                }
            }
            i -= 1;
        }
        None
    }

    /// Parts the pair v-w.
    fn part(&mut self, v: usize, w: usize) {
        self.rack.mate[v] = None;
        self.rack.mate[w] = None;
    }

    /// From now on v waits at its level, behind those that wait there already.
    fn wait(&mut self, v: usize) {
        self.queues.join(v, self.rack.level[v]);
    }

    /// v, which is to rise, "loses its mate if it has one". Its former mate then
    /// waits; v itself doesn't, and if it did, it waits no more.
    fn lose_mate(&mut self, v: usize) {
        self.queues.leave(v);
        if let Some(w) = self.rack.mate[v] {
            self.part(v, w);
            self.wait(w);
        }
    }

    /// "Rise of u to i: u takes ownership of every link to a board then below
    /// i. Other owners stand."
    fn rise(&mut self, u: usize, i: i32) {
        self.rack.level[u] = i;
        for w in self.rack.neighbours_below(u, i) {
            self.rack.owner[u][w] = true;
            self.rack.owner[w][u] = false;
        }
    }

    /// "Draw at u, level i: list u's neighbours below i by rising number, k of
    /// them; the chosen one stands at place [...], places from 0. [...]
    /// If the chosen y has a mate, that pair is parted. Then y rises to i, and
    /// u and y are mates." The mate of a riser u is lost before: "A riser's former
    /// mate comes before the chosen board's former mate." (document 02, W-203)
    fn draw(&mut self, u: usize, i: i32) -> Moved {
        let below = self.rack.neighbours_below(u, i);
        let y = below[self.words.choose(below.len())?];
        self.lose_mate(y);
        self.rise(y, i);
        self.rack.mate[u] = Some(y);
        self.rack.mate[y] = Some(u);
        self.new_pairs.push((u, y));
        Ok(())
    }

    /// "Taking a waiting v at level i": hand on, then draw if "k is at least
    /// 4^i", "with g and t for 4 and 3" (document 02, W-207), and fall if not.
    fn take(&mut self, v: usize) -> Moved {
        let i = self.rack.level[v];
        self.hand_on(v, i);
        let k = self.rack.neighbours_below(v, i).len();
        if k >= self.rack.settings.threshold(i) {
            self.draw(v, i)
        } else {
            self.fall(v, i)
        }
    }

    /// "v hands each owned link whose other end is also at level i to that
    /// end."
    fn hand_on(&mut self, v: usize, i: i32) {
        for w in 0..self.rack.n {
            if self.rack.owner[v][w] && self.rack.level[w] == i {
                self.rack.owner[v][w] = false;
                self.rack.owner[w][v] = true;
            }
        }
    }

    /// "v falls to i-1. Then the boards to which v owned links just after the
    /// fall are gone through by rising number". The list is made once; each
    /// board is looked at when its turn comes. "A board that falls joins the end
    /// of its new level before any rise that follows the fall." (document 02,
    /// W-203)
    fn fall(&mut self, v: usize, i: i32) -> Moved {
        self.rack.level[v] = i - 1;
        self.falls += 1;
        self.wait(v);
        let owned: Vec<usize> = (0..self.rack.n)
            .filter(|&w| self.rack.owner[v][w])
            .collect();
        for w in owned {
            self.look_at(w, i)?;
        }
        Ok(())
    }

    /// "each one that is below i with a count at i of at least 4^i loses its
    /// mate if it has one, rises to i and draws." With g for 4 (document 02, W-207).
    fn look_at(&mut self, w: usize, i: i32) -> Moved {
        if self.rack.level[w] < i && self.rack.reaches(w, i) {
            self.lose_mate(w);
            self.rise(w, i);
            self.draw(w, i)?;
        }
        Ok(())
    }

    /// "The settling: while any board waits, take one of the highest level", and
    /// "the one that has waited at that level longest" (document 02, W-203).
    fn settle(&mut self) -> Moved {
        while let Some(v) = self.next_waiting() {
            self.take(v)?;
        }
        Ok(())
    }

    /// The first of the queues. The assertions here and at the end of a change
    /// are for the self-check, which is built with them.
    fn next_waiting(&mut self) -> Option<usize> {
        debug_assert!(
            self.queues.list_the_waiting(&self.rack),
            "the queues are not the waiting boards"
        );
        self.queues.take()
    }
}
