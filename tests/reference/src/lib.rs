//! The pairing rack of document 01, with the requests of document 02 that have
//! landed, written plainly from the papers alone.
//!
//! Nothing here is made to be fast. Links stand in a square table, every count
//! is worked out from its definition whenever it is asked for, and the bytes
//! of a rack are written afresh after each change. Other programs for the same
//! papers are set against this one.

pub mod calls;
pub mod checks;
pub mod grammar;
pub mod image;
pub mod moves;
pub mod queues;
pub mod rack;
pub mod sound;
pub mod trace;
pub mod words;

pub use calls::{audit, change, change_with_pairs, level, linked, make, make_with, mate, Answer};
pub use calls::{roster, rosters};
pub use image::{IDLE, RACK_BYTES};
pub use rack::{Rack, Settings};
pub use sound::sound;
pub use trace::{program, run, Outcome, RECORD_SPACE, TEXT_LIMIT};
