//! One change on a rack, turned back by the first number that fits.

use crate::audit::pairs_if_sound;
use crate::bits;
use crate::draws::{all_choose, Fair, Places, Plain};
use crate::layout::{linked, roster, vertices, RackBytes};
use crate::moves::{self, Tally};
use crate::saved::Saved;
use crate::settings::Setting;

/// The number and figures of a change; a refused one has no other figures. The draws
/// are the words used, those passed over too.
#[derive(Clone, Copy, Debug, Default, PartialEq, Eq)]
pub struct Answer {
    pub number: u32,
    pub draws: u64,
    pub falls: u32,
    pub pairs: u32,
}

impl Answer {
    pub fn refused(number: u32) -> Answer {
        Answer {
            number,
            ..Answer::default()
        }
    }

    pub fn accepted(tally: Tally) -> Answer {
        Answer {
            number: 0,
            draws: u64::from(tally.draws),
            falls: tally.falls,
            pairs: tally.pairs,
        }
    }
}

/// Code 1 adds the edge a-b and code 2 drops it. The rack may be any bytes;
/// it is audited first, and the audit finds how many pairs it holds.
pub fn change(rack: &mut RackBytes, code: u32, a: u32, b: u32, words: &[u32]) -> Answer {
    match pairs_if_sound(rack) {
        Some(pairs) => change_of(rack, code, a, b, words, |_| pairs),
        None => Answer::refused(6),
    }
}

/// The same on a rack that is known to be sound, without the audit.
pub fn change_sound(rack: &mut RackBytes, code: u32, a: u32, b: u32, words: &[u32]) -> Answer {
    change_of(rack, code, a, b, words, pairs)
}

#[inline(always)]
fn change_of(
    rack: &mut RackBytes,
    code: u32,
    a: u32,
    b: u32,
    words: &[u32],
    pairs: impl Fn(&RackBytes) -> u32,
) -> Answer {
    let ends = match allowed(rack, code, a, b) {
        Ok(ends) => ends,
        Err(number) => return Answer::refused(number),
    };
    let pairs = pairs(rack);
    let enough = |rack: &RackBytes, most: usize| {
        let first = words.get(..most.min(vertices(rack) / 2));
        first.is_some_and(all_choose)
    };
    let setting = Setting::of(rack);
    let words = words.iter().copied();
    made(rack, setting, code, ends, words, enough, pairs)
}

/// A change that 7 to 11 don't fit, on a sound rack that holds so many pairs. If the
/// words are enough for as many draws as it can have, each takes the next of them.
#[inline(always)]
pub fn made<W: Iterator<Item = u32> + Clone>(
    rack: &mut RackBytes,
    setting: &'static Setting,
    code: u32,
    ends: (u8, u8),
    words: W,
    enough: impl Fn(&RackBytes, usize) -> bool,
    pairs: u32,
) -> Answer {
    let places = Plain(words.clone());
    match play(rack, setting, code, ends, places, enough, pairs) {
        Some(tally) => Answer::accepted(tally),
        None => made_or_not(rack, setting, code, ends, words, pairs),
    }
}

#[inline(always)]
fn play<P: Places>(
    rack: &mut RackBytes,
    setting: &'static Setting,
    code: u32,
    ends: (u8, u8),
    places: P,
    enough: impl Fn(&RackBytes, usize) -> bool,
    pairs: u32,
) -> Option<Tally> {
    if code == 1 {
        moves::add(rack, setting, ends, places, enough, pairs)
    } else {
        moves::drop(rack, setting, ends, places, enough, pairs)
    }
}

/// A change with any words, which is taken back if it runs out of them.
#[inline(never)]
fn made_or_not<W: Iterator<Item = u32>>(
    rack: &mut RackBytes,
    setting: &'static Setting,
    code: u32,
    ends: (u8, u8),
    words: W,
    pairs: u32,
) -> Answer {
    let saved = Saved::of(rack);
    let mut fair = Fair::of(words);
    let tally = play(rack, setting, code, ends, &mut fair, |_, _| true, pairs);
    match tally.filter(|_| !fair.ran_out) {
        Some(tally) => Answer {
            draws: u64::from(tally.draws) + fair.passed,
            ..Answer::accepted(tally)
        },
        None => {
            saved.put_back(rack);
            Answer::refused(12)
        }
    }
}

/// Numbers 7 to 11, first fit first; otherwise the two vertices.
pub fn allowed(rack: &RackBytes, code: u32, a: u32, b: u32) -> Result<(u8, u8), u32> {
    let n = vertices(rack);
    if code != 1 && code != 2 {
        return Err(7);
    }
    if a as usize >= n || b as usize >= n {
        return Err(8);
    }
    if a == b {
        return Err(9);
    }
    let (a, b) = (a as u8, b as u8);
    match (code, linked(rack, a, b)) {
        (1, true) => Err(10),
        (2, false) => Err(11),
        _ => Ok((a, b)),
    }
}

/// The pairs of a sound rack: its mated vertices are those that stand above rank 0.
fn pairs(rack: &RackBytes) -> u32 {
    (vertices(rack) as u32 - bits::size(&roster(rack, 0))) / 2
}
