//! The boards that wait in a change: "Teachers follow the queues of source
//! document 001 and the record should do the same." (document 02, W-203)

use crate::rack::{Rack, HIGHEST};

/// Which of the waiting boards of the highest level is taken.
#[derive(Clone, Copy, Debug, PartialEq, Eq)]
pub enum Order {
    /// "the one that has waited at that level longest"
    FirstCome,
    /// "the lowest number", which the request replaces. It is there for tests
    /// alone: a change made in both orders tells whether the order decides it.
    LowestNumber,
}

/// A queue for each level from 0 to 3, the longest waiting first. They last for
/// one change: "No waiting board is stored between changes."
pub struct Queues {
    order: Order,
    of_level: Vec<Vec<usize>>,
}

impl Queues {
    pub fn empty(order: Order) -> Queues {
        Queues {
            order,
            of_level: (0..=HIGHEST).map(|_| Vec::new()).collect(),
        }
    }

    /// v joins the end of a level's queue; at -1 no board waits.
    pub fn join(&mut self, v: usize, level: i32) {
        if level >= 0 {
            self.of_level[level as usize].push(v);
        }
    }

    /// v waits no more, if it did.
    pub fn leave(&mut self, v: usize) {
        for queue in &mut self.of_level {
            queue.retain(|&w| w != v);
        }
    }

    /// The board to take, which leaves its queue: "Among waiting boards of the
    /// highest level, the one that has waited at that level longest is taken, in
    /// place of the lowest number."
    pub fn take(&mut self) -> Option<usize> {
        let mut from_the_top = self.of_level.iter_mut().rev();
        let queue = from_the_top.find(|queue| !queue.is_empty())?;
        let place = match self.order {
            Order::FirstCome => 0,
            Order::LowestNumber => (0..queue.len()).min_by_key(|&place| queue[place])?,
        };
        Some(queue.remove(place))
    }

    /// Whether nobody waits.
    pub fn are_empty(&self) -> bool {
        self.of_level.iter().all(|queue| queue.is_empty())
    }

    /// Whether the queues list the waiting boards of a rack and no others, each
    /// once, at its level.
    pub fn list_the_waiting(&self, rack: &Rack) -> bool {
        (0..=HIGHEST).all(|i| {
            let mut listed = self.of_level[i as usize].clone();
            listed.sort_unstable();
            let here = |&v: &usize| rack.waiting(v) && rack.level[v] == i;
            (0..rack.n).filter(here).eq(listed)
        })
    }
}
