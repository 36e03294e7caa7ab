//! Each call made on the core and on the independent program, with equal
//! answers and equal bytes, or a word on what differs.

use crate::asked::Asked;
use crate::Verdict;
use pairing::{Audit, Level, Linked, Mate, Roster};
use reference::calls::change_rack;
use reference::checks::random::Random;
use reference::{change_with_pairs, Answer, Rack};
use std::fmt::{self, Debug, Display, Formatter};
use std::sync::atomic::{AtomicU64, Ordering};

/// An error saying what the core gave and what was wanted, if they differ.
pub fn same<T: PartialEq + Debug>(what: impl Display, core: T, wanted: T) -> Verdict {
    if core == wanted {
        return Ok(());
    }
    Err(format!("{what}: core {core:?}, wanted {wanted:?}"))
}

/// An error naming the first byte of a rack that differs, and its field, or the
/// lengths if these differ.
pub fn same_bytes(what: impl Display, core: &[u8], wanted: &[u8]) -> Verdict {
    same(format_args!("{what}: length"), core.len(), wanted.len())?;
    match first_difference(core, wanted) {
        None => Ok(()),
        Some(at) => {
            let (field, one, other) = (field(at), core[at], wanted[at]);
            Err(format!(
                "{what}: byte {at} ({field}): core {one}, wanted {other}"
            ))
        }
    }
}

/// The first place at which bytes of the same length differ.
pub fn first_difference(core: &[u8], wanted: &[u8]) -> Option<usize> {
    if core == wanted {
        return None;
    }
    (0..wanted.len()).find(|&at| core[at] != wanted[at])
}

/// The field of a rack in which a byte stands.
fn field(at: usize) -> String {
    match at {
        0..=1 => "n".into(),
        2..=3 => "link number".into(),
        4 => "growth".into(),
        5 => "top level".into(),
        6..=7 => "spare".into(),
        8..=263 => format!("level of {}", at - 8),
        264..=775 => format!("mate of {}", (at - 264) / 2),
        776..=1_799 => format!("count of {} at {}", (at - 776) / 4, at % 4),
        1_800..=9_991 => format!("row of {}", (at - 1_800) / 32),
        9_992..=10_151 => format!("roster of level {}", (at - 9_992) as i32 / 32 - 1),
        _ => "past a rack".into(),
    }
}

/// The bytes that stand on each side of a buffer lent to the core.
const GUARD: usize = 64;

/// Bytes to stand around a buffer: others at each call, so that nothing that the
/// core could write there is what they are, and nothing that it could read there
/// gives the same twice.
fn guards() -> [u8; 2 * GUARD] {
    static CALLS: AtomicU64 = AtomicU64::new(0);
    let call = CALLS.fetch_add(1, Ordering::Relaxed);
    let mut random = Random::new(0x6a5d_0000 + call);
    [(); 2 * GUARD].map(|()| random.bits() as u8)
}

/// A call of the core on a copy of a buffer, and the bytes after it. The copy
/// stands between guards, which must stay.
pub fn guarded<T>(
    buffer: &[u8],
    call: impl FnOnce(&mut [u8]) -> T,
) -> Result<(T, Vec<u8>), String> {
    let guards = guards();
    let (before, after) = guards.split_at(GUARD);
    let mut all = [before, buffer, after].concat();
    let (lent, end) = all[GUARD..].split_at_mut(buffer.len());
    let answer = call(lent);
    let (bytes, stay) = (lent.to_vec(), end == after && all[..GUARD] == *before);
    same("bytes around the buffer stay", stay, true)?;
    Ok((answer, bytes))
}

/// A call of the core that may only read the buffer.
pub fn reading<T>(
    what: impl Display,
    buffer: &[u8],
    call: impl FnOnce(&[u8]) -> T,
) -> Result<T, String> {
    let (answer, bytes) = guarded(buffer, |lent| call(lent))?;
    same_bytes(what, &bytes, buffer)?;
    Ok(answer)
}

/// Making a rack in a buffer that holds these bytes.
pub fn make(buffer: &[u8], n: u32) -> Result<u32, String> {
    let (core, bytes) = guarded(buffer, |rack| pairing::make(rack, n).0)?;
    let mut wanted = buffer.to_vec();
    let number = reference::make(&mut wanted, n);
    let what = format!("make of {n} boards in {} bytes", buffer.len());
    same(&what, core, number)?;
    same_bytes(&what, &bytes, &wanted)?;
    Ok(number)
}

/// The same with settings.
pub fn make_with(buffer: &[u8], n: u32, growth: u32, top: u32) -> Result<u32, String> {
    let call = |rack: &mut [u8]| pairing::make_with(rack, n, growth, top).0;
    let (core, bytes) = guarded(buffer, call)?;
    let mut wanted = buffer.to_vec();
    let number = reference::make_with(&mut wanted, n, growth, top);
    let length = buffer.len();
    let what = format!("make of {n} boards, growth {growth}, top {top} in {length} bytes");
    same(&what, core, number)?;
    same_bytes(&what, &bytes, &wanted)?;
    Ok(number)
}

/// The audit.
pub fn audit(rack: &[u8]) -> Result<(u32, bool), String> {
    let Audit { number, yes } = reading("audit", rack, pairing::audit)?;
    let core = (number.0, yes);
    let (number, yes) = reference::audit(rack);
    same("audit", core, (number, u32::from(yes)))?;
    Ok((number, yes))
}

/// The level of v.
pub fn level(rack: &[u8], v: u32) -> Result<(u32, i32), String> {
    let what = format!("level of {v}");
    let Level { number, level } = reading(&what, rack, |rack| pairing::level(rack, v))?;
    let wanted = reference::level(rack, v);
    same(&what, (number.0, level), wanted)?;
    Ok(wanted)
}

/// The mate of v.
pub fn mate(rack: &[u8], v: u32) -> Result<(u32, u32), String> {
    let what = format!("mate of {v}");
    let Mate { number, mate } = reading(&what, rack, |rack| pairing::mate(rack, v))?;
    let wanted = reference::mate(rack, v);
    same(&what, (number.0, mate), wanted)?;
    Ok(wanted)
}

/// Whether v and w are linked.
pub fn linked(rack: &[u8], v: u32, w: u32) -> Result<(u32, u32), String> {
    let what = format!("link {v}-{w}");
    let Linked { number, linked } = reading(&what, rack, |rack| pairing::linked(rack, v, w))?;
    let wanted = reference::linked(rack, v, w);
    same(&what, (number.0, linked), wanted)?;
    Ok(wanted)
}

/// The numbers of vertices at these levels, asked for one after the other.
pub fn rosters<const N: usize>(rack: &[u8], levels: [i32; N]) -> Result<[(u32, u32); N], String> {
    let wanted = reference::rosters(rack, levels);
    rosters_are(rack, levels, wanted)?;
    Ok(wanted)
}

/// The same, where the answers are known.
pub fn rosters_are<const N: usize>(
    rack: &[u8],
    levels: [i32; N],
    wanted: [(u32, u32); N],
) -> Verdict {
    let ask = |rack: &[u8]| levels.map(|level| pairing::roster(rack, level));
    let core = reading("rosters", rack, ask)?;
    for ((level, Roster { number, count }), wanted) in levels.into_iter().zip(core).zip(wanted) {
        let what = format_args!("boards at level {level}");
        same(what, (number.0, count), wanted)?;
    }
    Ok(())
}

/// A change that is the same on both sides: its answer, and how many new pairs it
/// has by the independent program.
#[derive(Clone, Copy)]
pub struct Made {
    pub answer: Answer,
    pub new_pairs: usize,
}

/// What stands after the words lent, where a change mustn't look: every draw would
/// take it.
const TEMPTING: [u32; 2] = [0, 1];

/// One change of the core, on a copy of a buffer, and the bytes after it.
fn core_change(buffer: &[u8], asked: &Asked) -> Result<(Answer, Vec<u8>), String> {
    let Asked { code, a, b, words } = asked;
    let stand = [&words[..], &TEMPTING].concat();
    let lent = &stand[..words.len()];
    let call = |rack: &mut [u8]| pairing::change(rack, *code, *a, *b, lent);
    let (answer, bytes) = guarded(buffer, call)?;
    let stay = stand.starts_with(words) && stand.ends_with(&TEMPTING);
    same("the words lent stay", stay, true)?;
    let answer = Answer {
        number: answer.number.0,
        draws: answer.draws,
        falls: answer.falls,
        pairs: answer.pairs,
    };
    Ok((answer, bytes))
}

/// One change on a buffer of any bytes and any length.
pub fn change(buffer: &[u8], asked: &Asked) -> Result<Made, String> {
    let (core, bytes) = core_change(buffer, asked)?;
    let mut wanted = buffer.to_vec();
    let Asked { code, a, b, words } = asked;
    let (answer, new_pairs) = change_with_pairs(&mut wanted, *code, *a, *b, words);
    same(asked, core, answer)?;
    same_bytes(asked, &bytes, &wanted)?;
    Ok(Made {
        answer,
        new_pairs: new_pairs.len(),
    })
}

/// The most words that a message shows.
const SHOWN: usize = 300;

impl Display for Asked {
    fn fmt(&self, f: &mut Formatter) -> fmt::Result {
        let Asked { code, a, b, words } = self;
        let (number, first) = (words.len(), &words[..words.len().min(SHOWN)]);
        write!(
            f,
            "change with code {code}, boards {a} {b}, {number} words from {first:?} on"
        )
    }
}

/// A rack that both go on changing: the core its bytes, the independent
/// program what they tell of, so that it needn't read them again each time.
#[derive(Clone)]
pub struct Twin {
    pub bytes: Vec<u8>,
    pub rack: Rack,
}

impl Twin {
    pub fn start(rack: Rack) -> Twin {
        let bytes = rack.to_bytes();
        Twin { bytes, rack }
    }

    pub fn change(&mut self, asked: &Asked) -> Result<Made, String> {
        let Asked { code, a, b, words } = asked;
        let (answer, new_pairs) = change_rack(&mut self.rack, *code, *a, *b, words);
        let (core, bytes) = core_change(&self.bytes, asked)?;
        same(asked, core, answer)?;
        if answer.number == 0 {
            self.bytes = self.rack.to_bytes();
        }
        same_bytes(asked, &bytes, &self.bytes)?;
        Ok(Made {
            answer,
            new_pairs: new_pairs.len(),
        })
    }
}
