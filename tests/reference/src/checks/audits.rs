//! The audit set against the other way of looking at a rack, on sound racks
//! that have been damaged and on bytes of no meaning.

use super::makers::sound_rack;
use super::random::Random;
use super::{came, holds, same, shape, Tally, Verdict};
use crate::{audit, change, level, linked, mate, roster, Answer, Rack, RACK_BYTES};

const SEEDS: u64 = 40_000;

pub fn audits_agree(_: &mut Tally) -> Verdict {
    let mut said = [0; 2];
    for seed in 0..SEEDS {
        let mut random = Random::new(0xa0d1_0000 + seed);
        let bytes = damaged(&mut random);
        let yes = agreed(&bytes).map_err(|why| format!("audit of seed {seed}: {why}"))?;
        said[usize::from(yes)] += 1;
    }
    came("audit", &said, &[0, 1])?;
    for byte in [0, 1, 2, 127, 254, 255] {
        same("audit of equal bytes", agreed(&[byte; RACK_BYTES])?, false)?;
        said[0] += 1;
    }
    let [no, yes] = said;
    Ok(format!("{yes} audits yes, {no} audits no: ok"))
}

/// The audit's word, if the other way of looking says the same and an unsound
/// rack is turned back by 6.
fn agreed(bytes: &[u8]) -> Result<bool, String> {
    let looked = shape::examine(bytes);
    let (number, yes) = audit(bytes);
    same("audit number", number, 0)?;
    holds(
        &format!("audit {yes} against {looked:?}"),
        yes == looked.is_ok(),
    )?;
    same("rack read", Rack::from_bytes(bytes).is_some(), yes)?;
    if yes {
        let read = Rack::from_bytes(bytes).map(|rack| rack.to_bytes());
        holds("read and written again", read.as_deref() == Some(bytes))?;
    } else {
        let mut buffer = bytes.to_vec();
        let answer = change(&mut buffer, 9, 900, 900, &[]);
        same("change", answer, Answer::refused(6))?;
        holds("a change writes nothing", buffer == bytes)?;
        same("level", level(bytes, 900), (6, 0))?;
        same("mate", mate(bytes, 900), (6, 0))?;
        same("linked", linked(bytes, 0, 0), (6, 0))?;
        same("roster", roster(bytes, -1), (6, 0))?;
    }
    Ok(yes)
}

fn damaged(random: &mut Random) -> Vec<u8> {
    let n = match random.below(100) {
        0 => random.between(60, 255),
        1 => 256,
        _ => random.between(1, 12),
    };
    let settings = random.settings();
    let mut rack = sound_rack(random, settings, n);
    match random.below(8) {
        0 => rack.to_bytes(),
        1..=3 => {
            for _ in 0..random.between(1, 2) {
                damage_rack(random, &mut rack);
            }
            rack.to_bytes()
        }
        4 => (0..RACK_BYTES).map(|_| random.bits() as u8).collect(),
        _ => {
            let mut bytes = rack.to_bytes();
            for _ in 0..random.between(1, 2) {
                damage_bytes(random, &mut bytes, n);
            }
            bytes
        }
    }
}

/// Damage after which the link number and the counts are still right.
fn damage_rack(random: &mut Random, rack: &mut Rack) {
    let (v, w) = (random.below(rack.n), random.below(rack.n));
    match random.below(8) {
        0 => rack.level[v] = random.below(5) as i32 - 1,
        1 => rack.mate[v] = Some(w),
        2 => rack.mate[v] = None,
        3 => {
            // The link between them changes its owner, if there is one.
            let owned = rack.owner[v][w];
            rack.owner[v][w] = rack.owner[w][v];
            rack.owner[w][v] = owned;
        }
        4 => rack.owner[v][w] = !rack.owner[v][w],
        // Other settings, by which a count may reach its threshold or a level be
        // above the top; the counts go with them.
        5 => rack.settings.growth = random.between(2, 8),
        6 => rack.settings.top = random.below(4) as i32,
        _ => {
            // A pair goes to another level, or an idle board does; the owners
            // go with the levels.
            let level = random.below(6) as i32 - 1;
            rack.level[v] = level;
            if let Some(mate) = rack.mate[v] {
                rack.level[mate] = level;
            }
            owners_by_level(rack);
        }
    }
}

fn owners_by_level(rack: &mut Rack) {
    for v in 0..rack.n {
        for w in 0..rack.n {
            if rack.owner[v][w] && rack.level[v] < rack.level[w] {
                rack.owner[v][w] = false;
                rack.owner[w][v] = true;
            }
        }
    }
}

/// Damage to one field of the bytes, often next to a board that there is.
fn damage_bytes(random: &mut Random, bytes: &mut [u8], n: usize) {
    let v = random.below((n + 2).min(256));
    let w = random.below((n + 2).min(256));
    match random.below(13) {
        0 => bytes[random.below(8)] ^= 1 << random.below(8),
        1 => bytes[0] = random.between(n.max(2) - 1, n + 1) as u8,
        2 => bytes[2] = bytes[2].wrapping_add(random.pick(&[1, 255])),
        3 => bytes[8 + v] = random.below(7) as u8,
        4 => bytes[264 + 2 * v..266 + 2 * v].copy_from_slice(&(w as u16).to_le_bytes()),
        5 => {
            let count = &mut bytes[776 + 4 * v + random.below(4)];
            *count = count.wrapping_add(random.pick(&[1, 255]));
        }
        6 => bytes[1800 + 32 * v + w / 8] ^= 1 << (w % 8),
        7 => own_row(bytes, v),
        8 => {
            // Both bits of one link, or a row that names its own board.
            bytes[1800 + 32 * v + w / 8] |= 1 << (w % 8);
            bytes[1800 + 32 * w + v / 8] |= 1 << (v % 8);
        }
        9 => bytes[9_992 + 32 * random.below(5) + v / 8] ^= 1 << (v % 8),
        10 => {
            // A board goes to another roster, or to its own.
            for of_level in bytes[9_992..].chunks_mut(32) {
                of_level[v / 8] &= !(1 << (v % 8));
            }
            bytes[9_992 + 32 * random.below(5) + v / 8] |= 1 << (v % 8);
        }
        // Another setting, by which counts may be wrong; those above the top, say.
        11 => bytes[4 + random.below(2)] = random.below(10) as u8,
        _ => bytes[random.below(RACK_BYTES)] = random.bits() as u8,
    }
}

/// A row that names its own board, with a link number and counts, up to the top level,
/// that go with it.
fn own_row(bytes: &mut [u8], v: usize) {
    bytes[1800 + 32 * v + v / 8] |= 1 << (v % 8);
    bytes[2] = bytes[2].wrapping_add(1);
    for j in usize::from(bytes[8 + v])..=usize::from(bytes[5].min(3)) {
        let count = &mut bytes[776 + 4 * v + j];
        *count = count.wrapping_add(1);
    }
}
