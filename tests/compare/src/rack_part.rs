//! Making, the audit and the queries.

use crate::cases;
use crate::damage::{damaged, Damage, DAMAGES};
use crate::lifts::hub;
use crate::rack_tally::Tally;
use crate::racks::{self, Kind};
use crate::Verdict;
use crate::{makings, roster_bits, setting_bytes};
use reference::checks::random::Random;
use reference::{Rack, Settings, RACK_BYTES};
use std::ops::Range;

/// Buffers that are no rack: none, one byte, the length before the rosters and
/// those next to it, a byte short, a byte over, five rosters too many, two racks.
const WRONG_LENGTHS: [usize; 14] = [
    0, 1, 2, 8, 264, 1_800, 9_991, 9_992, 9_993, 10_151, 10_153, 10_312, 20_304, 65_536,
];

/// Racks tried of each kind: name, kind, racks, seed of the first. Few are
/// large, since the independent program takes milliseconds for those.
const SOUND: [(&str, Kind, u64, u64); 3] = [
    ("reached by changes", Kind::Reached, 14_000, 0x1000_0000),
    ("sound at random", Kind::Random, 20_000, 0x2000_0000),
    ("dense", Kind::Dense, 8_000, 0x3000_0000),
];

/// Damaged racks tried of each kind of damage, those to rosters being fewer, since
/// every bit of these is turned besides; and the seed of the first.
const DAMAGED: u64 = 8_000;
const ROSTERS_DAMAGED: u64 = 3_000;
const FIRST_DAMAGED: u64 = 0x4000_0000;

/// Large racks tried, sound and damaged, and the seed of the first.
const LARGE: (u64, u64) = (600, 0x5000_0000);

pub fn all() -> Verdict {
    makings::all()?;
    cases::queries()?;
    println!("P11 and the levels, mates, links and rosters after P1 to P10: equal");
    let mut whole = Tally::new();
    for (name, kind, number, first) in SOUND {
        let part = sound(kind, first..first + number)?;
        let told = |why| format!("racks {name}: {why}");
        part.audits.only_came(&[true]).map_err(told)?;
        part.link_numbers.came(&[0, 8, 9]).map_err(told)?;
        whole.add(&format!("{number} racks {name}"), &part);
    }
    for (name, damage) in DAMAGES {
        let part = with_damage(name, damage)?;
        let told = |why| format!("damage to {name}: {why}");
        part.audits.came(&[false]).map_err(told)?;
        whole.add(&format!("damage to {name}"), &part);
    }
    whole.add("large racks, sound and damaged", &large(LARGE)?);
    whole.add("every bit of a rack of 9 boards turned", &every_bit()?);
    whole.add("large hubs of all settings", &hubs()?);
    for (name, part) in [
        ("bytes without meaning", no_meaning()?),
        ("wrong lengths", wrong_lengths()?),
    ] {
        part.audits.only_came(&[false])?;
        whole.add(name, &part);
    }
    setting_bytes::all(&mut whole)?;
    roster_bits::all()?;
    whole.all_came()
}

/// Bytes with no meaning, to see that they stay.
pub fn noise(length: usize, seed: u64) -> Vec<u8> {
    let mut random = Random::new(seed);
    (0..length).map(|_| random.bits() as u8).collect()
}

/// A rack of any kind and any settings, and its number of vertices.
fn any_rack(random: &mut Random, size: fn(&mut Random) -> usize) -> (Rack, usize) {
    let n = size(random);
    let kind = random.pick(&[Kind::Reached, Kind::Random, Kind::Random, Kind::Dense]);
    let settings = random.settings();
    (racks::rack_with(random, settings, n, kind), n)
}

/// Sound racks of a kind.
fn sound(kind: Kind, seeds: Range<u64>) -> Result<Tally, String> {
    let mut tally = Tally::new();
    for seed in seeds {
        let mut random = Random::new(seed);
        let n = racks::size(&mut random);
        let settings = random.settings();
        let rack = racks::rack_with(&mut random, settings, n, kind).to_bytes();
        let asked = tally.ask(&mut random, &rack, n);
        asked.map_err(|why| format!("seed {seed:#x}: {why}"))?;
    }
    Ok(tally)
}

/// Racks with damage of a kind.
fn with_damage(name: &str, damage: Damage) -> Result<Tally, String> {
    let number = match damage {
        Damage::Rosters(_) => ROSTERS_DAMAGED,
        _ => DAMAGED,
    };
    let mut tally = Tally::new();
    for seed in FIRST_DAMAGED..FIRST_DAMAGED + number {
        let mut random = Random::new(seed);
        let (rack, n) = any_rack(&mut random, racks::size);
        let rack = damaged(&mut random, &rack, damage);
        let asked = tally.ask(&mut random, &rack, n);
        asked.map_err(|why| format!("seed {seed:#x}, damage to {name}: {why}"))?;
    }
    Ok(tally)
}

/// Large racks, as they are and with damage of each kind.
fn large((number, first): (u64, u64)) -> Result<Tally, String> {
    let mut tally = Tally::new();
    for seed in first..first + number {
        let mut random = Random::new(seed);
        let n = random.between(65, 256);
        let kind = random.pick(&[Kind::Random, Kind::Dense]);
        let settings = random.settings();
        let rack = racks::rack_with(&mut random, settings, n, kind);
        let told = |why| format!("seed {seed:#x}, {n} boards, {settings:?}: {why}");
        tally.ask(&mut random, &rack.to_bytes(), n).map_err(told)?;
        let (_, damage) = random.pick(&DAMAGES);
        let rack = damaged(&mut random, &rack, damage);
        tally.look(&rack).map_err(told)?;
    }
    tally.audits.all_came()?;
    Ok(tally)
}

/// Every single bit of one rack turned.
fn every_bit() -> Result<Tally, String> {
    let mut random = Random::new(0x6000_0000);
    let rack = racks::rack(&mut random, 9, Kind::Random);
    let mut bytes = rack.to_bytes();
    let mut tally = Tally::new();
    for bit in 0..8 * RACK_BYTES {
        bytes[bit / 8] ^= 1 << (bit % 8);
        let told = |why| format!("bit {bit} of a rack turned: {why}");
        tally.look(&bytes).map_err(told)?;
        bytes[bit / 8] ^= 1 << (bit % 8);
    }
    Ok(tally)
}

/// Hubs with many neighbours, which all count at the levels above; as they are, and
/// with each count of the hub one too many.
fn hubs() -> Result<Tally, String> {
    let mut random = Random::new(0x6100_0000);
    let mut tally = Tally::new();
    for settings in Settings::all() {
        for k in [127, 128, 255] {
            let told = |why| format!("hub of {k}, {settings:?}: {why}");
            let mut bytes = hub(settings, k).to_bytes();
            tally.ask(&mut random, &bytes, 256).map_err(told)?;
            for at in 776..780 {
                bytes[at] = bytes[at].wrapping_add(1);
                tally.look(&bytes).map_err(told)?;
                bytes[at] = bytes[at].wrapping_sub(1);
            }
        }
    }
    Ok(tally)
}

/// Bytes that tell of no rack.
fn no_meaning() -> Result<Tally, String> {
    let mut tally = Tally::new();
    let mut random = Random::new(0x7000_0000);
    for byte in 0..=255 {
        tally.ask(&mut random, &[byte; RACK_BYTES], 256)?;
    }
    for seed in 0..1_000 {
        tally.ask(&mut random, &noise(RACK_BYTES, seed), 256)?;
    }
    Ok(tally)
}

/// Buffers of each wrong length: bytes with no meaning, and sound racks cut off
/// or with zeros after them.
pub fn wrong_buffers() -> Vec<Vec<u8>> {
    let mut random = Random::new(0x7100_0000);
    let racks = [5, 256].map(|n| racks::rack(&mut random, n, Kind::Random).to_bytes());
    let of_length = |length| {
        let cut = racks.iter().map(move |rack| {
            let mut buffer = rack.clone();
            buffer.resize(length, 0);
            buffer
        });
        let mut all: Vec<Vec<u8>> = cut.collect();
        all.push(noise(length, 7));
        all
    };
    WRONG_LENGTHS.into_iter().flat_map(of_length).collect()
}

fn wrong_lengths() -> Result<Tally, String> {
    let mut tally = Tally::new();
    let mut random = Random::new(0x7200_0000);
    for buffer in wrong_buffers() {
        for _ in 0..20 {
            let asked = tally.ask(&mut random, &buffer, 5);
            asked.map_err(|why| format!("{} bytes: {why}", buffer.len()))?;
        }
    }
    Ok(tally)
}
