//! The rosters of the tuned program: audits of racks in which rosters and ranks
//! don't agree, and the query for the number of vertices at a level.

#[path = "../../../tests/compare/src/asked.rs"]
mod asked;
#[path = "../../../tests/compare/src/racks.rs"]
mod racks;

use racks::Kind;
use reference::checks::random::Random;
use reference::{Rack, Settings};
use tuned::{RackBytes, RACK_BYTES};

const RANKS: usize = 8;
const MATES: usize = 264;
const ROSTERS: usize = 9_992;

/// Sound racks with few edges and with many, of sizes around those at which a
/// word or half of a set is full, and one of each of the settings.
fn sound_racks() -> Vec<(String, RackBytes)> {
    let mut random = Random::new(0x80_0000);
    let mut racks = Vec::new();
    for n in [
        1, 2, 7, 8, 9, 31, 63, 64, 65, 100, 127, 128, 129, 191, 192, 193, 200, 255, 256,
    ] {
        for kind in [Kind::Random, Kind::Dense] {
            let rack = racks::rack(&mut random, n, kind);
            racks.push((format!("{kind:?} rack of {n} vertices"), rack));
        }
    }
    for settings in Settings::all() {
        let n = random.between(20, 256);
        let kind = random.pick(&[Kind::Random, Kind::Dense]);
        let rack = racks::rack_with(&mut random, settings, n, kind);
        racks.push((format!("{kind:?} rack of {n}, {settings:?}"), rack));
    }
    let bytes = |(told, rack): (String, Rack)| (told, bytes(&rack));
    racks.into_iter().map(bytes).collect()
}

fn bytes(rack: &Rack) -> RackBytes {
    let bytes = rack.to_bytes().try_into().expect("a rack's length");
    assert!(tuned::audit(&bytes));
    bytes
}

fn mate(rack: &RackBytes, v: usize) -> Option<usize> {
    let at = MATES + 2 * v;
    let mate = usize::from(u16::from_le_bytes([rack[at], rack[at + 1]]));
    (mate < 256).then_some(mate)
}

/// Every bit of the rosters turned.
#[test]
fn audits_of_every_roster_bit() {
    for (told, rack) in sound_racks() {
        for place in 0..8 * (RACK_BYTES - ROSTERS) {
            let mut mine = rack;
            mine[ROSTERS + place / 8] ^= 1 << (place % 8);
            assert!(!tuned::audit(&mine), "{told}, bit {place}");
        }
    }
}

/// Every other rank for a vertex, and for it and its mate, in the same rosters.
#[test]
fn audits_of_every_rank() {
    for (told, rack) in sound_racks() {
        for (v, rank) in (0..256).flat_map(|v| (0..=255).map(move |rank| (v, rank))) {
            if rank == rack[RANKS + v] {
                continue;
            }
            let mut mine = rack;
            for v in std::iter::once(v).chain(mate(&rack, v)) {
                mine[RANKS + v] = rank;
                assert!(!tuned::audit(&mine), "{told}, rank {rank} of {v}");
            }
        }
    }
}

/// A vertex goes to every other rank together with its rosters, so that it isn't
/// on that of its mate, or is free above rank 0; one from n on goes to any rank.
#[test]
fn audits_of_vertices_on_another_rank() {
    for (told, rack) in sound_racks() {
        for (v, rank) in (0..256).flat_map(|v| (0..5).map(move |rank| (v, rank))) {
            let mut mine = rack;
            mine[RANKS + v] = rank;
            for roster in mine[ROSTERS..].chunks_exact_mut(32) {
                roster[v / 8] &= !(1 << (v % 8));
            }
            mine[ROSTERS + 32 * usize::from(rank) + v / 8] |= 1 << (v % 8);
            let same = mine == rack;
            assert_eq!(tuned::audit(&mine), same, "{told}, {v} on rank {rank}");
        }
    }
}

/// Fewer or more vertices than the rosters have.
#[test]
fn audits_of_other_numbers_of_vertices() {
    for (told, rack) in sound_racks() {
        for n in 0_u16..=512 {
            let mut mine = rack;
            mine[..2].copy_from_slice(&n.to_le_bytes());
            let same = mine[..2] == rack[..2];
            assert_eq!(tuned::audit(&mine), same, "{told}, with {n}");
        }
    }
}

/// All levels, others near them and far off, and such as are a level again in
/// fewer bits.
const LEVELS: [i32; 14] = [
    i32::MIN,
    -257,
    -3,
    -2,
    -1,
    0,
    1,
    2,
    3,
    4,
    5,
    255,
    256,
    i32::MAX,
];

/// The query on sound racks, and on those with a bit turned anywhere.
#[test]
fn numbers_at_levels() {
    let mut numbers = [0; 7];
    for seed in 0..3_000 {
        let mut random = Random::new(0x81_0000 + seed);
        let n = racks::size(&mut random);
        let kind = random.pick(&[Kind::Reached, Kind::Random, Kind::Dense, Kind::Forks]);
        let settings = random.settings();
        let mut bytes = racks::rack_with(&mut random, settings, n, kind).to_bytes();
        if random.percent(30) {
            bytes[random.below(RACK_BYTES)] ^= 1 << random.below(8);
        }
        let mine: RackBytes = bytes.clone().try_into().expect("a rack's length");
        for (level, wanted) in LEVELS.iter().zip(reference::rosters(&bytes, LEVELS)) {
            let told = format!("seed {seed}, {kind:?} {n}, {settings:?}, level {level}");
            let came = tuned::roster(&mine, *level);
            assert_eq!(came.map_or((6, 0), |count| (0, count)), wanted, "{told}");
            if let Some(count) = came {
                assert_eq!(tuned::roster_sound(&mine, *level), count, "{told}");
            }
            numbers[wanted.0 as usize] += 1;
        }
    }
    assert!(numbers[0] > 10_000 && numbers[6] > 10_000, "{numbers:?}");
}
