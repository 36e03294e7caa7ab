//! Making at all settings (document 02, W-207): its numbers, first fit first, the
//! bytes that it gives, and which of bytes 4 to 7 are those of a sound rack.

use super::refusals::{noise, WRONG_LENGTHS};
use super::{came, holds, same, Tally, Verdict};
use crate::{audit, make, make_with, RACK_BYTES};

/// Board numbers, growths and top levels, the last ones outside their ranges: among
/// them such as would be within if they were cut to a byte or two.
const BOARDS: [u32; 10] = [1, 2, 5, 255, 256, 0, 257, 65_537, 1 << 31, u32::MAX];
const GROWTHS: [u32; 14] = [2, 3, 4, 5, 6, 7, 8, 0, 1, 9, 10, 260, 65_540, u32::MAX];
const TOPS: [u32; 10] = [0, 1, 2, 3, 4, 5, 255, 256, 65_539, u32::MAX];

pub fn making(_: &mut Tally) -> Verdict {
    let mut numbers = [0; 14];
    for n in BOARDS {
        for growth in GROWTHS {
            for top in TOPS {
                let told = |why| format!("making of {n} {growth} {top}: {why}");
                let number = one_making(n, growth, top).map_err(told)?;
                numbers[number as usize] += 1;
            }
        }
    }
    for length in WRONG_LENGTHS {
        wrong_length(length)?;
        numbers[1] += 1;
    }
    came("number", &numbers, &[0, 1, 5, 13])?;
    short_form()?;
    let bytes = every_byte()?;
    Ok(format!(
        "{} makings, with 0 {}, 5 {} and 13 {}, {bytes} values of bytes 4 to 7: ok",
        BOARDS.len() * GROWTHS.len() * TOPS.len(),
        numbers[0],
        numbers[5],
        numbers[13]
    ))
}

/// The number told by the places in the lists: "Making meets 1 and 5" and 13 "just
/// after 5".
fn one_making(n: u32, growth: u32, top: u32) -> Result<u32, String> {
    let within = |list: &[u32], number| list.contains(&number);
    let wanted = match (within(&BOARDS[..5], n), within(&GROWTHS[..7], growth)) {
        (false, _) => 5,
        (true, true) if within(&TOPS[..4], top) => 0,
        _ => 13,
    };
    let mut rack = noise(RACK_BYTES);
    same("number", make_with(&mut rack, n, growth, top), wanted)?;
    let left = match wanted {
        0 => fresh(n, growth as u8, top as u8),
        _ => noise(RACK_BYTES),
    };
    holds("the bytes", rack == left)?;
    same("audit", audit(&rack), (0, wanted == 0))?;
    Ok(wanted)
}

/// The bytes of a rack without links.
fn fresh(n: u32, growth: u8, top: u8) -> Vec<u8> {
    let mut bytes = vec![0; RACK_BYTES];
    bytes[..2].copy_from_slice(&(n as u16).to_le_bytes());
    bytes[4] = growth;
    bytes[5] = top;
    bytes[264..776].fill(255);
    for v in 0..n as usize {
        bytes[9_992 + v / 8] |= 1 << (v % 8);
    }
    bytes
}

/// 1 comes before 5 and 13, and nothing is written.
fn wrong_length(length: usize) -> Result<(), String> {
    let mut buffer = noise(length);
    for (n, growth, top) in [(5, 4, 3), (0, 4, 3), (5, 9, 3), (5, 4, 4), (0, 0, 9)] {
        same("length", make_with(&mut buffer, n, growth, top), 1)?;
    }
    holds("making writes nothing", buffer == noise(length))
}

/// "The short form of making gives 4 and 3 also", whatever the buffer held.
fn short_form() -> Result<(), String> {
    for n in 1..=256 {
        let mut rack = noise(RACK_BYTES);
        same("make", make(&mut rack, n), 0)?;
        same("audit", audit(&rack), (0, true))?;
        holds("a rack made is empty", rack == fresh(n, 4, 3))?;
    }
    Ok(())
}

/// "The audit tests both bytes; 6 and 7 stay zero": every value of each on a rack
/// without links of all settings, which is sound at any settings that there are.
fn every_byte() -> Result<u32, String> {
    let mut tried = 0;
    for (growth, top) in (2..=8).flat_map(|growth| (0..=3).map(move |top| (growth, top))) {
        for at in 4..8 {
            let mut rack = fresh(3, growth, top);
            for value in 0..=255 {
                rack[at] = value;
                let yes = match at {
                    4 => (2..=8).contains(&value),
                    5 => value <= 3,
                    _ => value == 0,
                };
                let told = format!("audit with byte {at} being {value}");
                same(&told, audit(&rack), (0, yes))?;
                tried += 1;
            }
        }
    }
    Ok(tried)
}
