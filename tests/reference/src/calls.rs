//! The calls on a rack buffer: making, the audit, the queries and one change,
//! each turned back by the first number that fits.

use crate::image::{IDLE, PLACES, RACK_BYTES};
use crate::moves::{self, Done};
use crate::queues::Order;
use crate::rack::{Rack, Settings};
use crate::sound::sound;
use crate::words::OutOfWords;

/// The change codes: "neither 1 (add) nor 2 (drop)" is turned back.
pub const ADD: u32 = 1;
pub const DROP: u32 = 2;

/// "A change answers 0, its draws, its falls (moves down by one level) and the
/// pairs then held." Turned back: "the number, with all other figures 0". "The
/// draws figure counts words used, passed-over ones included" (document 02,
/// W-206), so it goes as far as a list may.
#[derive(Clone, Copy, Debug, PartialEq, Eq)]
pub struct Answer {
    pub number: u32,
    pub draws: u64,
    pub falls: u32,
    pub pairs: u32,
}

impl Answer {
    /// The answer of a change that is turned back.
    pub fn refused(number: u32) -> Answer {
        Answer {
            number,
            draws: 0,
            falls: 0,
            pairs: 0,
        }
    }
}

/// "5. The board number n asked for isn't 1 to 256."
pub fn board_number_fits(n: u32) -> bool {
    1 <= n && n as usize <= PLACES
}

/// "The short form of making gives 4 and 3" (document 02, W-207).
pub fn make(rack: &mut [u8], n: u32) -> u32 {
    make_with(rack, n, 4, 3)
}

/// "Making meets 1 and 5", and "A setting outside its range is number 13, looked at
/// just after 5" (document 02, W-207); otherwise the buffer becomes a rack of n
/// boards without links, which has these settings.
pub fn make_with(rack: &mut [u8], n: u32, growth: u32, top: u32) -> u32 {
    if rack.len() != RACK_BYTES {
        return 1;
    }
    if !board_number_fits(n) {
        return 5;
    }
    let Some(settings) = Settings::of(growth, top) else {
        return 13;
    };
    rack.copy_from_slice(&Rack::empty_with(settings, n as usize).to_bytes());
    0
}

/// "the audit only 1 (an unsound rack gets "no")"
pub fn audit(rack: &[u8]) -> (u32, bool) {
    if rack.len() != RACK_BYTES {
        return (1, false);
    }
    (0, sound(rack))
}

/// The rack in a buffer, or number 1 or 6.
fn open(bytes: &[u8]) -> Result<Rack, u32> {
    if bytes.len() != RACK_BYTES {
        return Err(1);
    }
    Rack::from_bytes(bytes).ok_or(6)
}

/// "8. A board named is n or more."
fn named(rack: &Rack, v: u32) -> Result<usize, u32> {
    let v = v as usize;
    if v < rack.n {
        Ok(v)
    } else {
        Err(8)
    }
}

/// "8. A board named is n or more. 9. The two boards named are the same."
fn two_named(rack: &Rack, v: u32, w: u32) -> Result<(usize, usize), u32> {
    let both = (named(rack, v)?, named(rack, w)?);
    if both.0 == both.1 {
        return Err(9);
    }
    Ok(both)
}

/// The level of board v, -1 to the top level.
pub fn level(rack: &[u8], v: u32) -> (u32, i32) {
    let found = open(rack).and_then(|rack| Ok(rack.level[named(&rack, v)?]));
    match found {
        Ok(level) => (0, level),
        Err(number) => (number, 0),
    }
}

/// The mate of board v, "65,535 if idle".
pub fn mate(rack: &[u8], v: u32) -> (u32, u32) {
    let found = open(rack).and_then(|rack| Ok(rack.mate[named(&rack, v)?]));
    match found {
        Ok(Some(mate)) => (0, mate as u32),
        Ok(None) => (0, IDLE),
        Err(number) => (number, 0),
    }
}

/// "1 for linked and 0 for not linked"
pub fn linked(rack: &[u8], v: u32, w: u32) -> (u32, u32) {
    let found = open(rack).and_then(|rack| {
        let (v, w) = two_named(&rack, v, w)?;
        Ok(rack.linked(v, w))
    });
    match found {
        Ok(linked) => (0, u32::from(linked)),
        Err(number) => (number, 0),
    }
}

/// "a query returns the number of boards at a level, 0 for a level outside -1 to
/// 3; it meets 1 and 6" (document 02, W-205)
pub fn roster(rack: &[u8], level: i32) -> (u32, u32) {
    rosters(rack, [level])[0]
}

/// The same query for several levels of one rack, which is looked at once.
pub fn rosters<const N: usize>(rack: &[u8], levels: [i32; N]) -> [(u32, u32); N] {
    match open(rack) {
        Ok(rack) => levels.map(|level| (0, rack.standing(level) as u32)),
        Err(number) => levels.map(|_| (number, 0)),
    }
}

/// One change on a rack buffer: "1 and 6 to 12".
pub fn change(rack: &mut [u8], code: u32, a: u32, b: u32, words: &[u32]) -> Answer {
    change_with_pairs(rack, code, a, b, words).0
}

/// One change, and its new pairs in order: "the u and the y of one of its
/// draws".
pub fn change_with_pairs(
    rack: &mut [u8],
    code: u32,
    a: u32,
    b: u32,
    words: &[u32],
) -> (Answer, Vec<(u32, u32)>) {
    let mut opened = match open(rack) {
        Ok(opened) => opened,
        Err(number) => return (Answer::refused(number), Vec::new()),
    };
    let (answer, new_pairs) = change_rack(&mut opened, code, a, b, words);
    if answer.number == 0 {
        rack.copy_from_slice(&opened.to_bytes());
    }
    (answer, new_pairs)
}

/// One change on a rack known to be sound: 7 to 12, or what the moves come to.
pub fn change_rack(
    rack: &mut Rack,
    code: u32,
    a: u32,
    b: u32,
    words: &[u32],
) -> (Answer, Vec<(u32, u32)>) {
    change_in_order(Order::FirstCome, rack, code, a, b, words)
}

/// The same with the waiting boards taken in either order. For tests alone: they
/// make a change in both orders, to show that among the changes they reach are
/// some that the order decides.
pub fn change_in_order(
    order: Order,
    rack: &mut Rack,
    code: u32,
    a: u32,
    b: u32,
    words: &[u32],
) -> (Answer, Vec<(u32, u32)>) {
    match made(order, rack, code, a, b, words) {
        Ok(done) => {
            let reply = told(&done);
            *rack = done.rack;
            reply
        }
        Err(number) => (Answer::refused(number), Vec::new()),
    }
}

/// The change made on a copy of the rack, or its number from 7 to 12: "Number 12
/// now means exactly that the change as defined runs out of words, it remains
/// last" and "otherwise the rack keeps its bytes" (document 02, W-206).
fn made(order: Order, rack: &Rack, code: u32, a: u32, b: u32, words: &[u32]) -> Result<Done, u32> {
    let (a, b) = allowed(rack, code, a, b)?;
    let done = if code == ADD {
        moves::add(rack, a, b, words, order)
    } else {
        moves::drop(rack, a, b, words, order)
    };
    done.map_err(|OutOfWords| 12)
}

/// Numbers 7 to 11, first fit first; otherwise the two boards.
fn allowed(rack: &Rack, code: u32, a: u32, b: u32) -> Result<(usize, usize), u32> {
    if code != ADD && code != DROP {
        return Err(7);
    }
    let (a, b) = two_named(rack, a, b)?;
    if code == ADD && rack.linked(a, b) {
        return Err(10);
    }
    if code == DROP && !rack.linked(a, b) {
        return Err(11);
    }
    Ok((a, b))
}

/// What an accepted change answers.
fn told(done: &Done) -> (Answer, Vec<(u32, u32)>) {
    let answer = Answer {
        number: 0,
        draws: done.draws as u64,
        falls: done.falls as u32,
        pairs: done.rack.pairs().len() as u32,
    };
    let pairs = done.new_pairs.iter();
    let pairs = pairs.map(|&(u, y)| (u as u32, y as u32)).collect();
    (answer, pairs)
}
