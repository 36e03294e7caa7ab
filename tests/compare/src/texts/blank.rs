//! The text of no bytes, by which no rack is set, with a rack buffer and a
//! record space of every length; and every text of one byte, none of which fits.

use super::{Case, Family};
use reference::{RACK_BYTES, RECORD_SPACE};

/// How far the lengths go on past those that are asked for.
const PAST: usize = 1_000;

pub fn families() -> Vec<Family> {
    let racks = (RACK_BYTES + PAST + 1) as u64;
    let rack = |k| Case {
        rack: k as usize,
        ..Case::of("")
    };
    let spaces = (RECORD_SPACE + PAST + 1) as u64;
    let space = |k| Case {
        space: k as usize,
        ..Case::of("")
    };
    vec![
        Family::new("no text, a rack of every length", racks, &[0, 1], rack),
        Family::new("no text, a space of every length", spaces, &[0, 3], space),
        Family::new("every text of one byte", 256, &[4], |byte| {
            Case::of([byte as u8])
        }),
    ]
}
