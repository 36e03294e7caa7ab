//! The tuned program against the plain one: audits and changes, seeded and bounded
//! by counts. Half of the racks have settings other than 4 and 3.

#[path = "../../../tests/compare/src/asked.rs"]
mod asked;
#[path = "../../../tests/compare/src/damage.rs"]
mod damage;
#[path = "../../../tests/compare/src/racks.rs"]
mod racks;

use asked::Asked;
use damage::{damaged, DAMAGES};
use racks::Kind;
use reference::calls::change_rack;
use reference::checks::makers::drawn;
use reference::checks::random::Random;
use reference::Rack;
use tuned::{RackBytes, RACK_BYTES};

/// The answer of the tuned program in the form of the plain one.
fn plain(answer: tuned::Answer) -> reference::Answer {
    reference::Answer {
        number: answer.number,
        draws: answer.draws,
        falls: answer.falls,
        pairs: answer.pairs,
    }
}

fn bytes(rack: &Rack) -> RackBytes {
    rack.to_bytes().try_into().expect("a rack's length")
}

/// A rack of one kind, and what is told of it if something is amiss.
fn any_rack(random: &mut Random, n: usize, kinds: &[Kind]) -> (Rack, String) {
    let (settings, kind) = (random.settings(), random.pick(kinds));
    let told = format!("{kind:?} rack of {n} vertices, {settings:?}");
    (racks::rack_with(random, settings, n, kind), told)
}

#[test]
fn audits_of_sound_racks() {
    for seed in 0..3_000 {
        let mut random = Random::new(0x50_0000 + seed);
        let n = racks::size(&mut random);
        let kinds = [Kind::Reached, Kind::Random, Kind::Dense, Kind::Forks];
        let (rack, told) = any_rack(&mut random, n, &kinds);
        assert!(tuned::audit(&bytes(&rack)), "seed {seed}, {told}");
    }
}

#[test]
fn audits_of_large_sound_racks() {
    for seed in 0..200 {
        let mut random = Random::new(0x51_0000 + seed);
        let n = random.between(60, 256);
        let (rack, told) = any_rack(&mut random, n, &[Kind::Random, Kind::Dense]);
        assert!(tuned::audit(&bytes(&rack)), "seed {seed}, {told}");
    }
}

/// The audit's word on damaged racks, and how often each word came.
fn audits_of_damaged(seeds: u64, size: fn(&mut Random) -> usize) -> [u64; 2] {
    let mut said = [0; 2];
    for seed in 0..seeds {
        let mut random = Random::new(0x52_0000 + seed);
        let n = size(&mut random);
        let kinds = [Kind::Reached, Kind::Random, Kind::Random, Kind::Dense];
        let (rack, told) = any_rack(&mut random, n, &kinds);
        for (name, damage) in DAMAGES {
            let bytes = damaged(&mut random, &rack, damage);
            let sound = reference::sound(&bytes);
            let bytes: RackBytes = bytes.try_into().expect("a rack's length");
            let audit = tuned::audit(&bytes);
            assert_eq!(audit, sound, "seed {seed}, {told}, {name}");
            said[usize::from(sound)] += 1;
        }
    }
    said
}

#[test]
fn audits_of_damaged_racks() {
    let [no, yes] = audits_of_damaged(4_000, racks::size);
    assert!(no > 20_000 && yes > 300, "{no} no, {yes} yes");
}

#[test]
fn audits_of_large_damaged_racks() {
    let [no, yes] = audits_of_damaged(250, |random| random.between(50, 256));
    assert!(no > 1_000 && yes > 20, "{no} no, {yes} yes");
}

/// A hub at level 1 with ever more neighbours at level 2, all of which own
/// their edge to it, and a count in the bytes that leaves out some or all of
/// the whole 64s.
#[test]
fn audits_of_counts_that_go_over() {
    for (others, more) in [(30, 4), (62, 6), (64, 20), (66, 40), (128, 20), (254, 30)] {
        let n = others + 2;
        let mut pairs = vec![(0, 1, 1)];
        let mut edges = vec![(0, 1)];
        for v in 2..n {
            edges.push((v, 0));
            edges.extend((1..=more / 2).map(|k| (v, 2 + (v - 2 + k) % others)));
            if v % 2 == 0 {
                pairs.push((v, v + 1, 2));
            }
        }
        let mut mine = bytes(&drawn(n, &pairs, &edges));
        assert_eq!(tuned::audit(&mine), others < 64, "{others} neighbours");
        for count in 0..=255 {
            mine[776 + 3] = count;
            let sound = reference::sound(&mine);
            let told = format!("{others} neighbours counted as {count}");
            assert_eq!(tuned::audit(&mine), sound, "{told}");
        }
    }
}

/// A second owner for single edges of dense racks, or an edge from a vertex to
/// itself, everywhere in the matrix of rows and with an edge number to suit.
#[test]
fn audits_of_edges_with_two_owners() {
    let mut random = Random::new(0x55_0000);
    for n in [40, 66, 100, 129, 192, 193, 255, 256] {
        let rack = bytes(&racks::rack(&mut random, n, Kind::Dense));
        assert!(tuned::audit(&rack), "dense rack of {n} vertices");
        for _ in 0..2_000 {
            let (v, w) = (random.below(n), random.below(n));
            let mut mine = rack;
            for (v, w) in [(v, w), (w, v)] {
                mine[1_800 + 32 * v + w / 8] |= 1 << (w % 8);
            }
            let bits: u32 = mine[1_800..9_992]
                .iter()
                .map(|byte| byte.count_ones())
                .sum();
            mine[2..4].copy_from_slice(&(bits as u16).to_le_bytes());
            assert!(!tuned::audit(&mine), "{n} vertices, {v} and {w}");
        }
    }
}

#[test]
fn audits_of_bytes_without_meaning() {
    for byte in 0..=255 {
        assert!(!tuned::audit(&[byte; RACK_BYTES]), "bytes {byte}");
    }
    let mut random = Random::new(0x53_0000);
    for _ in 0..2_000 {
        let noise = [(); RACK_BYTES].map(|()| random.bits() as u8);
        assert!(!tuned::audit(&noise));
    }
}

/// A list of changes from one rack: the same answers and the same bytes.
fn changes(random: &mut Random, rack: &mut Rack, number: usize, adds: usize, told: &str) {
    let mut mine = bytes(rack);
    for step in 0..number {
        let Asked { code, a, b, words } = Asked::any(random, rack, adds);
        let (wanted, _) = change_rack(rack, code, a, b, &words);
        let came = if random.percent(50) {
            tuned::change(&mut mine, code, a, b, &words)
        } else {
            tuned::change_sound(&mut mine, code, a, b, &words)
        };
        let told = format!("{told}, change {step}: code {code}, {a} {b}, words {words:?}");
        assert_eq!(plain(came), wanted, "{told}");
        assert!(mine == bytes(rack), "{told}: other bytes");
    }
}

#[test]
fn changes_from_empty_racks() {
    for (n, lists, number) in [
        (1, 1, 50),
        (2, 10, 200),
        (3, 20, 300),
        (5, 60, 400),
        (8, 60, 500),
        (13, 40, 600),
        (30, 10, 900),
        (70, 4, 1_200),
        (256, 1, 1_500),
    ] {
        for list in 0..lists {
            let seed = 0x60_0000 + 1_000 * n as u64 + list;
            let mut random = Random::new(seed);
            let mut rack = Rack::empty_with(random.settings(), n);
            let told = format!("{n} vertices, {:?}, seed {seed:#x}", rack.settings);
            changes(&mut random, &mut rack, 2 * number / 3, 80, &told);
            changes(&mut random, &mut rack, number / 3, 35, &told);
        }
    }
}

#[test]
fn changes_from_random_racks() {
    for seed in 0..25_000 {
        let mut random = Random::new(0x61_0000 + seed);
        let n = racks::size(&mut random);
        let kinds = [Kind::Random, Kind::Random, Kind::Dense];
        let (mut rack, told) = any_rack(&mut random, n, &kinds);
        let told = format!("{told}, seed {seed}");
        changes(&mut random, &mut rack, 4, 45, &told);
    }
}

#[test]
fn changes_from_large_random_racks() {
    for seed in 0..250 {
        let mut random = Random::new(0x62_0000 + seed);
        let n = random.between(66, 256);
        let kinds = [Kind::Random, Kind::Random, Kind::Dense];
        let (mut rack, told) = any_rack(&mut random, n, &kinds);
        let told = format!("{told}, seed {seed}");
        changes(&mut random, &mut rack, 6, 40, &told);
    }
}

/// Drops on dense racks, half of them of pairs: long rows are handed over, and
/// nearly all vertices stand on one level.
#[test]
fn drops_on_dense_racks() {
    for seed in 0..60 {
        let mut random = Random::new(0x64_0000 + seed);
        let n = random.between(66, 256);
        let (mut rack, told) = any_rack(&mut random, n, &[Kind::Dense]);
        let told = format!("{told}, seed {seed}");
        changes(&mut random, &mut rack, 16, 0, &told);
    }
}

#[test]
fn damaged_racks_are_turned_back() {
    for seed in 0..1_000 {
        let mut random = Random::new(0x63_0000 + seed);
        let n = random.between(2, 12);
        let (rack, _) = any_rack(&mut random, n, &[Kind::Random]);
        let Asked { code, a, b, words } = Asked::any(&mut random, &rack, 45);
        let (_, damage) = random.pick(&DAMAGES);
        let mut plain_bytes = damaged(&mut random, &rack, damage);
        let mut mine: RackBytes = plain_bytes.clone().try_into().expect("a rack's length");
        let wanted = reference::change(&mut plain_bytes, code, a, b, &words);
        let came = tuned::change(&mut mine, code, a, b, &words);
        assert_eq!(plain(came), wanted, "seed {seed}");
        assert!(mine[..] == plain_bytes[..], "seed {seed}: other bytes");
    }
}
