//! The rosters told by hand (document 02, W-205): "The rack gains at offset 9,992
//! five rosters of 32 bytes, for levels -1 to 3, with a board's bit laid out as in
//! a row." The offsets here are worked out anew.

use super::makers::{drawn, sound_rack};
use super::random::Random;
use super::{holds, same, Tally, Verdict};
use crate::{audit, change, level, linked, make, mate, roster, Answer, Rack, RACK_BYTES};

/// The bytes of five rosters, those of level -1 first.
type Five = [[u8; 32]; 5];

/// A rack with its rosters, and how many boards stand at -1, 0, 1, 2 and 3.
struct Row {
    name: String,
    rack: Vec<u8>,
    rosters: Five,
    boards: [u32; 5],
}

pub fn told_by_hand(tally: &mut Tally) -> Verdict {
    let mut rows = fresh_racks();
    rows.extend(worked_example());
    rows.extend(bench_racks());
    rows.push(far_boards());
    tally.changes += CHANGES;
    for row in &rows {
        look(row).map_err(|why| format!("rosters, '{}': {why}", row.name))?;
    }
    let places = every_place()?;
    Ok(format!(
        "{} racks with their rosters told by hand, {places} boards each in its place: ok",
        rows.len()
    ))
}

fn look(row: &Row) -> Result<(), String> {
    same("length", row.rack.len(), 10_152)?;
    same("audit", audit(&row.rack), (0, true))?;
    same("rosters", &row.rack[9_992..], row.rosters.as_flattened())?;
    for (at, boards) in (-1..=3).zip(row.boards) {
        same("boards at a level", roster(&row.rack, at), (0, boards))?;
    }
    for at in [i32::MIN, -258, -257, -3, -2, 4, 5, 254, 255, i32::MAX] {
        same("boards at no level", roster(&row.rack, at), (0, 0))?;
    }
    Ok(())
}

/// A roster in which these bytes, by their place, aren't zero.
fn only(bytes: &[(usize, u8)]) -> [u8; 32] {
    let mut roster = [0; 32];
    for &(place, byte) in bytes {
        roster[place] = byte;
    }
    roster
}

/// Five rosters of boards 0 to 7 alone: the first byte of each.
fn first_bytes(bytes: [u8; 5]) -> Five {
    bytes.map(|byte| only(&[(0, byte)]))
}

fn made(n: u32) -> Vec<u8> {
    let mut rack = vec![0; RACK_BYTES];
    make(&mut rack, n);
    rack
}

/// All boards of a fresh rack stand at -1.
fn fresh_racks() -> Vec<Row> {
    let nobody = [0; 32];
    let mut all_but_one = [255; 32];
    all_but_one[31] = 127;
    let lowest = [
        (1, only(&[(0, 1)])),
        (4, only(&[(0, 15)])),
        (7, only(&[(0, 127)])),
        (8, only(&[(0, 255)])),
        (9, only(&[(0, 255), (1, 1)])),
        (20, only(&[(0, 255), (1, 255), (2, 15)])),
        (255, all_but_one),
        (256, [255; 32]),
    ];
    let row = |(n, idle)| Row {
        name: format!("a fresh rack of {n} boards"),
        rack: made(n),
        rosters: [idle, nobody, nobody, nobody, nobody],
        boards: [n, 0, 0, 0, 0],
    };
    lowest.map(row).into()
}

/// The changes that the racks below come of: those of the worked example, of P4
/// and P6 in a row, and of P8.
const CHANGES: u64 = 5 + 5 + 4;

/// A rack after changes, of which only the first eight boards are there.
fn after(name: &str, rack: &[u8], bytes: [u8; 5], boards: [u32; 5]) -> Row {
    Row {
        name: name.into(),
        rack: rack.to_vec(),
        rosters: first_bytes(bytes),
        boards,
    }
}

/// The worked example of document 01, change by change: 0 and 1 are paired at 0;
/// then 2 and 3; then 0 and 1 fall to -1.
fn worked_example() -> Vec<Row> {
    let mut rack = made(4);
    let steps = [
        ("add 0-1", (1, 0, 1), [12, 3, 0, 0, 0], [2, 2, 0, 0, 0]),
        ("add 1-2", (1, 1, 2), [12, 3, 0, 0, 0], [2, 2, 0, 0, 0]),
        ("add 2-3", (1, 2, 3), [0, 15, 0, 0, 0], [0, 4, 0, 0, 0]),
        ("drop 0-1", (2, 0, 1), [3, 12, 0, 0, 0], [2, 2, 0, 0, 0]),
        ("2-3 again", (1, 2, 3), [3, 12, 0, 0, 0], [2, 2, 0, 0, 0]),
    ];
    let step = |(name, (code, a, b), bytes, boards)| {
        change(&mut rack, code, a, b, &[0, 0]);
        after(name, &rack, bytes, boards)
    };
    steps.map(step).into()
}

/// The racks after P4, P6 and P8. In P4 0 and 3 are paired at 1; in P6 0 and 4
/// at 0; in P8 0 and 2, and 1 and 3, at 0.
fn bench_racks() -> Vec<Row> {
    let mut rack = made(5);
    for (b, word) in [(1, 0), (2, 0), (3, 0), (4, 2)] {
        change(&mut rack, 1, 0, b, &[word, 0]);
    }
    let p4 = after("P4", &rack, [22, 0, 9, 0, 0], [3, 0, 2, 0, 0]);
    change(&mut rack, 2, 0, 3, &[5, 0]);
    let p6 = after("P6", &rack, [14, 17, 0, 0, 0], [3, 2, 0, 0, 0]);
    let mut rack = made(4);
    for (code, a, b) in [(1, 0, 1), (1, 0, 2), (1, 1, 3), (2, 0, 1)] {
        change(&mut rack, code, a, b, &[0, 0]);
    }
    let p8 = after("P8", &rack, [0, 15, 0, 0, 0], [0, 4, 0, 0, 0]);
    vec![p4, p6, p8]
}

/// Boards of all five levels at both ends of bytes and of the rosters.
fn far_boards() -> Row {
    let pairs = [(100, 101, 0), (7, 9, 1), (8, 16, 2), (0, 255, 3)];
    let rack = drawn(256, &pairs, &pairs.map(|(a, b, _)| (a, b)));
    let mut idle = [255; 32];
    for (place, byte) in [(0, 126), (1, 252), (2, 254), (12, 207), (31, 127)] {
        idle[place] = byte;
    }
    Row {
        name: "boards of all levels among 256".into(),
        rack: rack.to_bytes(),
        rosters: [
            idle,
            only(&[(12, 48)]),
            only(&[(0, 128), (1, 2)]),
            only(&[(1, 1), (2, 1)]),
            only(&[(0, 1), (31, 128)]),
        ],
        boards: [248, 2, 2, 2, 2],
    }
}

/// Each board at each level: its bit is set in byte v div 8 of its level's 32, at
/// v mod 8, and clear in the four others.
fn every_place() -> Result<u32, String> {
    let mut places = 0;
    for v in 0..256 {
        for (place, level) in (0..5).zip(-1..=3) {
            let w = (v + 1) % 256;
            let rack = match level {
                -1 => Rack::empty(256),
                _ => drawn(256, &[(v, w, level)], &[(v, w)]),
            };
            let rosters = &rack.to_bytes()[9_992..];
            let is_set = |five: usize| rosters[32 * five + v / 8] & (1 << (v % 8)) != 0;
            let bits = [0, 1, 2, 3, 4].map(is_set);
            let wanted = [0, 1, 2, 3, 4].map(|five| five == place);
            same(&format!("bits of {v} at level {level}"), bits, wanted)?;
            places += 1;
        }
    }
    Ok(places)
}

/// Racks with every single bit of their rosters turned: sound ones at random, of
/// these numbers of boards.
const TURNED: [usize; 8] = [1, 2, 7, 8, 9, 33, 255, 256];

/// "A rack is sound only if each board below n is in the roster of its level and
/// in none besides, with the other bits clear": so each bit decides.
pub fn every_bit(tally: &mut Tally) -> Verdict {
    let mut bits = 0;
    for n in TURNED {
        let mut random = Random::new(0x2057_0000 + n as u64);
        let settings = random.settings();
        let rack = sound_rack(&mut random, settings, n).to_bytes();
        let told = |why| format!("a roster's bit turned on a rack of {n} boards: {why}");
        same("audit", audit(&rack), (0, true)).map_err(told)?;
        for bit in 0..8 * 160 {
            let mut turned = rack.clone();
            turned[9_992 + bit / 8] ^= 1 << (bit % 8);
            unsound(&turned).map_err(told)?;
            tally.changes += 1;
            bits += 1;
        }
    }
    Ok(format!("{bits} bits of rosters turned, each unsound: ok"))
}

/// All calls on a rack that isn't sound.
fn unsound(rack: &[u8]) -> Result<(), String> {
    same("audit", audit(rack), (0, false))?;
    holds("no rack is read", Rack::from_bytes(rack).is_none())?;
    same("level", level(rack, 0), (6, 0))?;
    same("mate", mate(rack, 0), (6, 0))?;
    same("linked", linked(rack, 0, 0), (6, 0))?;
    for at in -2..=4 {
        same("roster", roster(rack, at), (6, 0))?;
    }
    let mut lent = rack.to_vec();
    let answer = change(&mut lent, 1, 0, 0, &[]);
    same("change", answer, Answer::refused(6))?;
    holds("a change writes nothing", lent == rack)
}
