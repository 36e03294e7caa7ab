//! The queues of pending vertices, one a rank: who joined first is taken first.
//!
//! They run through the mates of the rack. A pending vertex has none, so its two
//! bytes tell meanwhile who comes next. Nothing has to be cleared but the ends of
//! the queues, and when no vertex pends any more the bytes hold mates alone.

use crate::layout::{mate, set_mate, RackBytes, FREE};

/// The next one of a queue is told by its number and this, which is more than any
/// mate, or by `FREE` if there is none.
const NEXT: u16 = 256;

/// Whether a vertex above rank 0 pends, from what stands for its mate.
pub fn pends(mate: u16) -> bool {
    mate >= NEXT
}

/// The vertex that is next.
pub fn vertex(next: u16) -> Option<u8> {
    (next != FREE).then_some(next as u8)
}

/// The ends of the queues: the first vertex, told as a next one is, and the last
/// one, if there is a first. Those of rank r stand in place r of eight, which
/// spares the test of the index.
pub struct Queues {
    first: [u16; 8],
    last: [u8; 8],
}

impl Queues {
    /// No vertex pends.
    pub fn start() -> Queues {
        Queues {
            first: [FREE; 8],
            last: [0; 8],
        }
    }

    /// The first vertex of a rank, told as a next one is.
    pub fn first(&self, rank: u8) -> u16 {
        self.first[usize::from(rank & 7)]
    }

    /// Vertex v of this rank is left without a mate and pends as the last one.
    pub fn join(&mut self, rack: &mut RackBytes, v: u8, rank: u8) {
        let k = usize::from(rank & 7);
        let next = NEXT | u16::from(v);
        set_mate(rack, v, FREE);
        if self.first[k] == FREE {
            self.first[k] = next;
        } else {
            set_mate(rack, self.last[k], next);
        }
        self.last[k] = v;
    }

    /// Vertex v of this rank no longer pends. Those before it are gone through,
    /// for queues are short and few leave them out of turn.
    #[inline(always)]
    pub fn leave(&mut self, rack: &mut RackBytes, v: u8, rank: u8) {
        let k = usize::from(rank & 7);
        let (told, after) = (NEXT | u16::from(v), mate(rack, v));
        if self.first[k] == told {
            self.first[k] = after;
            return;
        }
        let mut before = self.first[k] as u8;
        while mate(rack, before) != told {
            before = mate(rack, before) as u8;
        }
        set_mate(rack, before, after);
        if after == FREE {
            self.last[k] = before;
        }
    }
}
