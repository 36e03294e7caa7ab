//! The programs that are measured.

use pairing::{Audit, Number};
use tuned::RackBytes;

/// The audit's answer on a sound rack.
const SOUND: Audit = Audit {
    number: Number::OK,
    yes: 1,
};

/// The proved core, the tuned program, or the tuned program without the audit
/// that stands before each change and roster query.
#[derive(Clone, Copy, Debug, PartialEq, Eq)]
pub enum Side {
    Core,
    Tuned,
    Bare,
}

/// A change's number, draws, falls and pairs.
type Figures = (u32, u64, u32, u32);

impl Side {
    pub fn named(name: &str) -> Option<Side> {
        match name {
            "core" => Some(Side::Core),
            "tuned" => Some(Side::Tuned),
            "bare" => Some(Side::Bare),
            _ => None,
        }
    }

    /// The audit's word.
    pub fn audit(self, rack: &RackBytes) -> bool {
        match self {
            Side::Core => pairing::audit(rack) == SOUND,
            _ => tuned::audit(rack),
        }
    }

    /// How many vertices are at a level of a sound rack.
    pub fn roster(self, rack: &RackBytes, level: i32) -> Option<u32> {
        match self {
            Side::Core => pairing::roster(rack, level).result().ok(),
            Side::Tuned => tuned::roster(rack, level),
            Side::Bare => Some(tuned::roster_sound(rack, level)),
        }
    }

    /// A change's number and figures.
    pub fn change(self, rack: &mut RackBytes, change: &Change, words: &[u32]) -> Figures {
        let &Change { code, a, b, .. } = change;
        if self == Side::Core {
            let answer = pairing::change(rack, code, a, b, words);
            return (answer.number.0, answer.draws, answer.falls, answer.pairs);
        }
        let answer = match self {
            Side::Bare => tuned::change_sound(rack, code, a, b, words),
            _ => tuned::change(rack, code, a, b, words),
        };
        (answer.number, answer.draws, answer.falls, answer.pairs)
    }

    /// A run's number and the length of its record. No run audits a change, so
    /// the tuned program has no other form.
    pub fn run(self, rack: &mut RackBytes, text: &[u8], space: &mut [u8]) -> (u32, usize) {
        if self == Side::Core {
            let outcome = pairing::run(rack, text, space);
            return (outcome.number.0, outcome.length);
        }
        let outcome = tuned::run(rack, text, space);
        (outcome.number, outcome.length)
    }
}

/// A change, with the place of its words in the common store.
#[derive(Clone, Copy)]
pub struct Change {
    pub code: u32,
    pub a: u32,
    pub b: u32,
    pub words_at: usize,
}
