//! The answers of the calls: the number, and each figure as the library wrote
//! it, all 0 if the call was turned back. `result` gives the figures alone, or
//! the number as an error.

use crate::{Number, FREE};

/// The answer of the audit.
#[derive(Clone, Copy, Debug, PartialEq, Eq)]
#[must_use]
pub struct Audit {
    pub number: Number,
    /// 1 if the rack is sound, 0 if not.
    pub yes: u32,
}

impl Audit {
    /// Whether the rack is sound.
    pub fn result(self) -> Result<bool, Number> {
        self.number.result().map(|()| self.yes == 1)
    }
}

/// The answer on a vertex's level.
#[derive(Clone, Copy, Debug, PartialEq, Eq)]
#[must_use]
pub struct Level {
    pub number: Number,
    /// -1 to the rack's top level; a free vertex is at -1.
    pub level: i32,
}

impl Level {
    /// The level.
    pub fn result(self) -> Result<i32, Number> {
        self.number.result().map(|()| self.level)
    }
}

/// The answer on a vertex's mate.
#[derive(Clone, Copy, Debug, PartialEq, Eq)]
#[must_use]
pub struct Mate {
    pub number: Number,
    /// The other vertex of the pair, or [`FREE`].
    pub mate: u32,
}

impl Mate {
    /// The mate; none if the vertex is free.
    pub fn result(self) -> Result<Option<u32>, Number> {
        let mate = Some(self.mate).filter(|&mate| mate != FREE);
        self.number.result().map(|()| mate)
    }
}

/// The answer on an edge.
#[derive(Clone, Copy, Debug, PartialEq, Eq)]
#[must_use]
pub struct Linked {
    pub number: Number,
    /// 1 if there is such an edge, 0 if not.
    pub linked: u32,
}

impl Linked {
    /// Whether there is such an edge.
    pub fn result(self) -> Result<bool, Number> {
        self.number.result().map(|()| self.linked == 1)
    }
}

/// The answer on the vertices at a level.
#[derive(Clone, Copy, Debug, PartialEq, Eq)]
#[must_use]
pub struct Roster {
    pub number: Number,
    /// How many vertices are at that level.
    pub count: u32,
}

impl Roster {
    /// How many vertices are at that level.
    pub fn result(self) -> Result<u32, Number> {
        self.number.result().map(|()| self.count)
    }
}

/// The answer of a change.
#[derive(Clone, Copy, Debug, PartialEq, Eq)]
#[must_use]
pub struct Answer {
    pub number: Number,
    /// How many of the words were used: 64 bits, since no call limits a word list.
    pub draws: u64,
    /// The moves down by one level.
    pub falls: u32,
    /// The pairs then held.
    pub pairs: u32,
}

impl Answer {
    /// The answer itself, if the change was made.
    pub fn result(self) -> Result<Answer, Number> {
        self.number.result().map(|()| self)
    }
}

/// The answer of a run.
#[derive(Clone, Copy, Debug, PartialEq, Eq)]
#[must_use]
pub struct Outcome {
    pub number: Number,
    /// The first line that doesn't fit, from 1 on, if the number is
    /// [`Number::BAD_LINE`]; otherwise 0.
    pub line: usize,
    /// The record's length.
    pub length: usize,
}

impl Outcome {
    /// The record's length.
    pub fn result(self) -> Result<usize, Number> {
        self.number.result().map(|()| self.length)
    }
}
