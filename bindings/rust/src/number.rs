//! The numbers, by their names and in words.

use std::error::Error;
use std::fmt::{self, Debug, Display, Formatter};

/// What every call answers first: [`Number::OK`] if it ran, or the first reason
/// that fits for which it was turned back. The names are those of
/// `bindings/c/pairing.h`; the number itself is the field. Printed, it says the
/// reason in words and what to do.
#[derive(Clone, Copy, PartialEq, Eq, Hash)]
#[must_use = "it says whether the call ran"]
#[repr(transparent)]
pub struct Number(pub u32);

impl Number {
    /// 0: the call ran.
    pub const OK: Number = Number(0);
    /// 1: the rack buffer isn't 10,152 bytes.
    pub const BAD_LENGTH: Number = Number(1);
    /// 2: the trace text is over 16,384 bytes.
    pub const LONG_TEXT: Number = Number(2);
    /// 3: the record space is under 65,536 bytes.
    pub const SHORT_SPACE: Number = Number(3);
    /// 4: the trace text doesn't fit the grammar.
    pub const BAD_LINE: Number = Number(4);
    /// 5: the number of vertices asked for isn't 1 to 256.
    pub const BAD_VERTEX_COUNT: Number = Number(5);
    /// 6: the rack isn't sound.
    pub const UNSOUND: Number = Number(6);
    /// 7: the change code is neither 1 nor 2.
    pub const BAD_CODE: Number = Number(7);
    /// 8: a vertex named is n or more.
    pub const NO_VERTEX: Number = Number(8);
    /// 9: the two vertices named are the same.
    pub const SAME_VERTEX: Number = Number(9);
    /// 10: an edge to add is there already.
    pub const EDGE_PRESENT: Number = Number(10);
    /// 11: an edge to drop isn't there.
    pub const EDGE_ABSENT: Number = Number(11);
    /// 12: the change runs out of words: it needs more than are lent.
    pub const TOO_FEW_WORDS: Number = Number(12);
    /// 13: the growth asked for isn't 2 to 8, or the top level isn't 0 to 3. It is
    /// looked at just after 5.
    pub const BAD_SETTING: Number = Number(13);

    /// The number as an error, unless the call ran.
    pub fn result(self) -> Result<(), Number> {
        match self {
            Number::OK => Ok(()),
            reason => Err(reason),
        }
    }

    /// The name and the words.
    fn told(self) -> (&'static str, &'static str) {
        let place = usize::try_from(self.0).unwrap_or(usize::MAX);
        let unknown = ("unknown", "no number of this library");
        TOLD.get(place).copied().unwrap_or(unknown)
    }
}

/// The name of each number, with what it says and what to do.
const TOLD: [(&str, &str); 14] = [
    ("OK", "the call ran"),
    (
        "BAD_LENGTH",
        "the rack buffer isn't 10,152 bytes; lend exactly RACK_BYTES",
    ),
    (
        "LONG_TEXT",
        "the trace text is over 16,384 bytes; make some of its changes by `change`",
    ),
    (
        "SHORT_SPACE",
        "the record space is under 65,536 bytes; lend RECORD_SPACE or more",
    ),
    (
        "BAD_LINE",
        "the trace text doesn't fit the grammar; mend the line that the outcome names",
    ),
    (
        "BAD_VERTEX_COUNT",
        "the number of vertices asked for isn't 1 to 256; ask for one of these",
    ),
    (
        "UNSOUND",
        "the rack isn't sound; make it by `make`, and let only the calls write to it",
    ),
    (
        "BAD_CODE",
        "the change code is neither 1 nor 2; pass ADD or DROP",
    ),
    (
        "NO_VERTEX",
        "a vertex named is n or more; name 0 to n - 1, of the n that the rack was made with",
    ),
    (
        "SAME_VERTEX",
        "the two vertices named are the same; name two",
    ),
    (
        "EDGE_PRESENT",
        "an edge to add is there already (v-w and w-v are one edge); leave the add out",
    ),
    (
        "EDGE_ABSENT",
        "an edge to drop isn't there; leave the drop out",
    ),
    (
        "TOO_FEW_WORDS",
        "the change needs more words than are lent; lend more, the first ones the same",
    ),
    (
        "BAD_SETTING",
        "the growth asked for isn't 2 to 8, or the top level isn't 0 to 3; ask for settings within these",
    ),
];

impl Display for Number {
    fn fmt(&self, f: &mut Formatter) -> fmt::Result {
        write!(f, "{}: {}", self.0, self.told().1)
    }
}

impl Debug for Number {
    fn fmt(&self, f: &mut Formatter) -> fmt::Result {
        write!(f, "{} ({self})", self.told().0)
    }
}

impl Error for Number {}
