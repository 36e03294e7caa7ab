//! The pairing core for Rust: each exported call as a safe function.
//!
//! A rack is 10,152 bytes lent by the caller; it holds a graph on up to 256
//! vertices and a maximal matching of it. Document 01 calls a vertex a board
//! and an edge a link; a vertex without a mate is free ("idle").
//!
//! Every call gives a [`Number`], which says whether it ran or why it was
//! turned back. Turned back, it writes nothing lent, and every other figure is
//! 0. `result` makes a [`Result`] of an answer.
//!
//! ```
//! use pairing::{Number, ADD, RACK_BYTES};
//!
//! fn main() -> Result<(), Number> {
//!     let mut rack = [0; RACK_BYTES];
//!     pairing::make(&mut rack, 4).result()?;
//!
//!     // The edge 0-1; of the two words lent, one is used.
//!     let answer = pairing::change(&mut rack, ADD, 0, 1, &[0, 0]).result()?;
//!     assert_eq!((answer.draws, answer.falls, answer.pairs), (1, 0, 1));
//!     assert_eq!(pairing::mate(&rack, 0).result()?, Some(1));
//!     assert_eq!(pairing::mate(&rack, 2).result()?, None);
//!     assert_eq!(pairing::level(&rack, 0).result()?, 0);
//!     assert!(pairing::linked(&rack, 1, 0).result()?);
//!     assert_eq!(pairing::roster(&rack, -1).result()?, 2);
//!     assert!(pairing::audit(&rack).result()?);
//!
//!     // The same edge again is refused, and no byte changes. So is one whose words run out.
//!     let again = pairing::change(&mut rack, ADD, 1, 0, &[0, 0]);
//!     assert_eq!(again.number, Number::EDGE_PRESENT);
//!     let short = pairing::change(&mut rack, ADD, 2, 3, &[]);
//!     assert_eq!(short.number, Number::TOO_FEW_WORDS);
//!     Ok(())
//! }
//! ```
//!
//! The same changes as a trace text, and its record:
//!
//! ```
//! use pairing::{Number, RACK_BYTES, RECORD_SPACE};
//!
//! let mut rack = vec![0; RACK_BYTES];
//! let mut space = vec![0; RECORD_SPACE];
//! let text = b"(rack (boards 4))\n(add (0 1) (draws 0 0))\n(add (1 0) (draws 0 0))\n";
//! let length = pairing::run(&mut rack, text, &mut space).result()?;
//! let record = "(rack (boards 4))\n\
//!               (done (draws 1) (falls 0) (pairs 1))\n\
//!               (refused 10)\n\
//!               (pair (0 1) (level 0))\n\
//!               (end (pairs 1) (mean 0 2))\n";
//! assert_eq!(&space[..length], record.as_bytes());
//!
//! // Without its last byte the text's third line doesn't fit.
//! let outcome = pairing::run(&mut rack, &text[..text.len() - 1], &mut space);
//! assert_eq!((outcome.number, outcome.line), (Number::BAD_LINE, 3));
//!
//! // A text of no bytes gets a record too, and leaves the rack as it is.
//! let length = pairing::run(&mut rack, b"", &mut space).result()?;
//! assert_eq!(&space[..length], b"(end (pairs 0))\n");
//! assert!(pairing::linked(&rack, 0, 1).result()?);
//! # Ok::<(), Number>(())
//! ```
//!
//! How many vertices are at a level, and who, from that level's roster:
//!
//! ```
//! use pairing::{Number, ADD, RACK_BYTES, ROSTERS, ROSTER_BYTES};
//!
//! let mut rack = vec![0; RACK_BYTES];
//! pairing::make(&mut rack, 4).result()?;
//! pairing::change(&mut rack, ADD, 1, 3, &[0, 0]).result()?;
//! let counts = [-1, 0, 1, 2, 3, 4].map(|level| pairing::roster(&rack, level).count);
//! assert_eq!(counts, [2, 2, 0, 0, 0, 0]);
//!
//! let level = 0;
//! let roster = &rack[ROSTERS + ROSTER_BYTES * (level + 1)..][..ROSTER_BYTES];
//! let there = (0..4).filter(|v| roster[v / 8] >> (v % 8) & 1 == 1);
//! assert!(there.eq([1, 3]));
//! # Ok::<(), Number>(())
//! ```
//!
//! A rack of base 2, where two neighbours below level 1 are enough to rise there:
//!
//! ```
//! use pairing::{Number, ADD, GROWTH_AT, RACK_BYTES, SHORT_GROWTH, SHORT_TOP, TOP_AT};
//!
//! let mut rack = vec![0; RACK_BYTES];
//! pairing::make_with(&mut rack, 4, 2, 3).result()?;
//! assert_eq!((rack[GROWTH_AT], rack[TOP_AT]), (2, 3));
//! pairing::change(&mut rack, ADD, 0, 1, &[0]).result()?;
//! pairing::change(&mut rack, ADD, 0, 2, &[0]).result()?;
//! assert_eq!(pairing::level(&rack, 0).result()?, 1);
//!
//! // A setting outside its range makes no rack: this one stays.
//! let refused = pairing::make_with(&mut rack, 4, 9, 3);
//! assert_eq!(refused, Number::BAD_SETTING);
//! assert_eq!(pairing::level(&rack, 0).result()?, 1);
//!
//! // The short form is the one with these settings.
//! let mut short = vec![0; RACK_BYTES];
//! pairing::make(&mut short, 4).result()?;
//! pairing::make_with(&mut rack, 4, SHORT_GROWTH, SHORT_TOP).result()?;
//! assert!(rack == short);
//! # Ok::<(), Number>(())
//! ```
//!
//! A number in words:
//!
//! ```
//! let refused = pairing::make(&mut [], 4).result().unwrap_err();
//! let words = "1: the rack buffer isn't 10,152 bytes; lend exactly RACK_BYTES";
//! assert_eq!(refused.to_string(), words);
//! ```

mod answers;
mod constants;
mod exported;
mod number;

pub use answers::{Answer, Audit, Level, Linked, Mate, Outcome, Roster};
pub use constants::*;
pub use number::Number;

/// What stands in a figure before a call. Every figure is written by it; one
/// left out would show.
const UNWRITTEN: u32 = 0xdead_beef;
const UNWRITTEN_DRAWS: u64 = 0xdead_beef_dead_beef;

/// Makes the buffer a rack of n vertices without edges, with growth
/// [`SHORT_GROWTH`] and top level [`SHORT_TOP`]. The number is 0, 1 or 5.
pub fn make(rack: &mut [u8], n: u32) -> Number {
    // SAFETY: pointer and length are those of one slice, lent for the call.
    unsafe { exported::pairing_make(rack.as_mut_ptr(), rack.len(), n) }
}

/// The same with a growth from [`LEAST_GROWTH`] to [`MOST_GROWTH`] and a top level
/// from 0 to [`MOST_TOP`]. The number is 0, 1, 5 or 13.
pub fn make_with(rack: &mut [u8], n: u32, growth: u32, top: u32) -> Number {
    // SAFETY: pointer and length are those of one slice, lent for the call.
    unsafe { exported::pairing_make_with(rack.as_mut_ptr(), rack.len(), n, growth, top) }
}

/// Whether the rack is sound. The number is 0 or 1.
pub fn audit(rack: &[u8]) -> Audit {
    let mut yes = UNWRITTEN;
    // SAFETY: the slice is lent for the call and only read; `yes` is a local.
    let number = unsafe { exported::pairing_audit(rack.as_ptr(), rack.len(), &mut yes) };
    Audit { number, yes }
}

/// The level of vertex v. The number is 0, 1, 6 or 8.
pub fn level(rack: &[u8], v: u32) -> Level {
    let mut level = UNWRITTEN as i32;
    // SAFETY: the slice is lent for the call and only read; `level` is a local.
    let number = unsafe { exported::pairing_level(rack.as_ptr(), rack.len(), v, &mut level) };
    Level { number, level }
}

/// The mate of vertex v. The number is 0, 1, 6 or 8.
pub fn mate(rack: &[u8], v: u32) -> Mate {
    let mut mate = UNWRITTEN;
    // SAFETY: the slice is lent for the call and only read; `mate` is a local.
    let number = unsafe { exported::pairing_mate(rack.as_ptr(), rack.len(), v, &mut mate) };
    Mate { number, mate }
}

/// Whether there is an edge v-w. The number is 0, 1, 6, 8 or 9.
pub fn linked(rack: &[u8], v: u32, w: u32) -> Linked {
    let mut linked = UNWRITTEN;
    // SAFETY: the slice is lent for the call and only read; `linked` is a local.
    let number = unsafe { exported::pairing_linked(rack.as_ptr(), rack.len(), v, w, &mut linked) };
    Linked { number, linked }
}

/// The number of vertices at a level, 0 for a level outside -1 to 3, and for one
/// above the rack's top level, where no vertex stands. Who they are is in the
/// level's roster ([`ROSTERS`]). The number is 0, 1 or 6.
pub fn roster(rack: &[u8], level: i32) -> Roster {
    let mut count = UNWRITTEN;
    // SAFETY: the slice is lent for the call and only read; `count` is a local.
    let number = unsafe { exported::pairing_roster(rack.as_ptr(), rack.len(), level, &mut count) };
    Roster { number, count }
}

/// Adds (code [`ADD`]) or drops (code [`DROP`]) the edge a-b and mends the
/// matching. The words decide which neighbours are drawn: of k neighbours, a word
/// below the largest multiple of k that is at most 2^32 chooses the one at place
/// word mod k, and any other word is passed over. A change that needs more words
/// than are lent is number 12, and the rack keeps its bytes. The number is 0, 1 or
/// 6 to 12.
pub fn change(rack: &mut [u8], code: u32, a: u32, b: u32, words: &[u32]) -> Answer {
    let mut draws = UNWRITTEN_DRAWS;
    let [mut falls, mut pairs] = [UNWRITTEN; 2];
    // SAFETY: both slices are lent for the call, the words only to be read; the figures are locals.
    let number = unsafe {
        exported::pairing_change(
            rack.as_mut_ptr(),
            rack.len(),
            code,
            a,
            b,
            words.as_ptr(),
            words.len(),
            &mut draws,
            &mut falls,
            &mut pairs,
        )
    };
    Answer {
        number,
        draws,
        falls,
        pairs,
    }
}

/// Runs a trace text: the rack that it asks for is made in the buffer and
/// changed line by line, and the record stands at the start of the space, whose
/// further bytes keep their values. Line 1 is `(rack (boards N))`, or
/// `(rack (boards N) (growth G) (top T))` for other settings than the short form's;
/// the record repeats it as it stands. Its last line is
/// `(end (pairs P) (mean Q R))`: the pairs then held, and twice the links as Q
/// times the boards plus R, R below their number. A text of no bytes sets no rack:
/// the buffer keeps its bytes, and the record is `(end (pairs 0))`. The number is 0
/// to 5 or 13.
pub fn run(rack: &mut [u8], text: &[u8], space: &mut [u8]) -> Outcome {
    let [mut line, mut length] = [UNWRITTEN as usize; 2];
    // SAFETY: the slices are lent for the call, the text only to be read; the figures are locals.
    let number = unsafe {
        exported::pairing_run(
            rack.as_mut_ptr(),
            rack.len(),
            text.as_ptr(),
            text.len(),
            space.as_mut_ptr(),
            space.len(),
            &mut line,
            &mut length,
        )
    };
    Outcome {
        number,
        line,
        length,
    }
}
