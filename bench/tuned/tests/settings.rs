//! The tuned program against the plain one at all 28 settings: racks made, audited
//! and changed.

#[path = "../../../tests/compare/src/asked.rs"]
mod asked;

use asked::Asked;
use reference::calls::change_rack;
use reference::checks::makers::{drawn_with, sound_rack};
use reference::checks::random::Random;
use reference::{Rack, Settings};
use tuned::{RackBytes, RACK_BYTES};

/// The bytes that hold the growth and the top level.
const GROWTH: usize = 4;
const TOP: usize = 5;

fn bytes(rack: &Rack) -> RackBytes {
    rack.to_bytes().try_into().expect("a rack's length")
}

/// The settings one by one, each with a place of its own for seeds.
fn all() -> impl Iterator<Item = (u64, Settings)> {
    (0..).zip(Settings::all())
}

#[test]
fn all_settings() {
    let all: Vec<(usize, i32)> = all().map(|(_, s)| (s.growth, s.top)).collect();
    let wanted = (2..=8).flat_map(|growth| (0..=3).map(move |top| (growth, top)));
    assert!(all.into_iter().eq(wanted));
}

/// Fresh racks, and those of the short form, from a buffer that held anything.
#[test]
fn makings() {
    for n in [1, 2, 63, 64, 65, 128, 200, 255, 256] {
        let mut mine = [7; RACK_BYTES];
        tuned::make(&mut mine, n as u16);
        assert!(mine == bytes(&Rack::empty(n)), "{n} vertices");
        for (_, settings) in all() {
            let mut mine = [7; RACK_BYTES];
            let Settings { growth, top } = settings;
            tuned::make_with(&mut mine, n as u16, growth as u8, top as u8);
            let wanted = bytes(&Rack::empty_with(settings, n));
            assert!(mine == wanted, "{settings:?}, {n} vertices");
        }
    }
}

/// Racks of up to 24 vertices with every setting, in range or not, in place of their
/// own, and with bits in the bytes after them.
#[test]
fn audits_with_other_settings() {
    let mut said = [0; 2];
    for (place, settings) in all() {
        for seed in 0..40 {
            let mut random = Random::new(0xa0_0000 + 1_000 * place + seed);
            let n = random.between(1, 24);
            let rack = bytes(&sound_rack(&mut random, settings, n));
            assert!(tuned::audit(&rack), "{settings:?}, seed {seed}");
            for (growth, top) in (0..=10).flat_map(|g| (0..=5).map(move |t| (g, t))) {
                let mut mine = rack;
                (mine[GROWTH], mine[TOP]) = (growth, top);
                let sound = reference::sound(&mine);
                let told = format!("{settings:?}, seed {seed}, told as {growth} {top}");
                assert_eq!(tuned::audit(&mine), sound, "{told}");
                said[usize::from(sound)] += 1;
            }
            for (at, bit) in (GROWTH..8).flat_map(|at| (0..8).map(move |bit| (at, bit))) {
                let mut mine = rack;
                mine[at] ^= 1 << bit;
                let sound = reference::sound(&mine);
                assert_eq!(tuned::audit(&mine), sound, "{settings:?}, {at} {bit}");
            }
        }
    }
    assert!(said.iter().all(|&times| times > 3_000), "{said:?}");
}

/// Every byte of growth and of top level on one empty rack, which all settings fit.
#[test]
fn audits_of_every_setting() {
    let rack = bytes(&Rack::empty(9));
    for (growth, top) in (0..=255).flat_map(|g| (0..=255).map(move |t| (g, t))) {
        let mut mine = rack;
        (mine[GROWTH], mine[TOP]) = (growth, top);
        let fits = (2..=8).contains(&growth) && top <= 3;
        assert_eq!(tuned::audit(&mine), fits, "{growth} {top}");
    }
}

/// Counts and ranks one up and one down, on racks of few edges and of many.
#[test]
fn audits_of_other_counts_and_ranks() {
    let mut said = [0; 2];
    for (place, settings) in all() {
        for (seed, n) in [(0, 5), (1, 12), (2, 30), (3, 90), (4, 140)] {
            let mut random = Random::new(0xa1_0000 + 1_000 * place + seed);
            let rack = bytes(&sound_rack(&mut random, settings, n));
            for step in 0..if n < 40 { 300 } else { 12 } {
                let mut mine = rack;
                let (v, j) = (random.below(n), random.below(4));
                let at = random.pick(&[8 + v, 776 + 4 * v + j]);
                mine[at] = mine[at].wrapping_add(random.pick(&[0, 1, 255]));
                let sound = reference::sound(&mine);
                let told = format!("{settings:?}, {n} vertices, step {step}, byte {at}");
                assert_eq!(tuned::audit(&mine), sound, "{told}");
                said[usize::from(sound)] += 1;
            }
        }
    }
    assert!(said.iter().all(|&times| times > 3_000), "{said:?}");
}

/// All edges among vertices of one level, each of which counts all others at the
/// levels above. The number of vertices goes past the threshold of the next level.
#[test]
fn audits_of_counts_about_their_thresholds() {
    for (_, settings) in all() {
        for level in 0..=settings.top {
            let next = settings.threshold(level + 1).min(256);
            let least = next.saturating_sub(4).max(2);
            for n in (least..=next + 4).filter(|n| n % 2 == 0 && *n <= 256) {
                let rack = bytes(&complete(settings, n, level));
                let sound = level == settings.top || n - 1 < next || next == 256;
                let told = format!("{settings:?}, {n} vertices at {level}");
                assert_eq!(tuned::audit(&rack), sound, "{told}");
                if n < 70 {
                    assert_eq!(reference::sound(&rack), sound, "{told}");
                }
            }
        }
    }
}

fn complete(settings: Settings, n: usize, level: i32) -> Rack {
    let pairs: Vec<(usize, usize, i32)> = (0..n / 2).map(|k| (2 * k, 2 * k + 1, level)).collect();
    let owner = |v: usize, w: usize| if (v + w) % 3 == 0 { (v, w) } else { (w, v) };
    let edges: Vec<(usize, usize)> = (0..n)
        .flat_map(|v| (0..v).map(move |w| owner(v, w)))
        .collect();
    drawn_with(settings, n, &pairs, &edges)
}

/// A list of changes from one rack: the same answers and the same bytes.
fn changes(random: &mut Random, rack: &mut Rack, number: usize, adds: usize, told: &str) {
    let mut mine = bytes(rack);
    for step in 0..number {
        let Asked { code, a, b, words } = Asked::any(random, rack, adds);
        let (wanted, _) = change_rack(rack, code, a, b, &words);
        let came = if random.percent(50) {
            tuned::change(&mut mine, code, a, b, &words)
        } else {
            tuned::change_sound(&mut mine, code, a, b, &words)
        };
        let came = reference::Answer {
            number: came.number,
            draws: came.draws,
            falls: came.falls,
            pairs: came.pairs,
        };
        let told = format!("{told}, change {step}: code {code}, {a} {b}, words {words:?}");
        assert_eq!(came, wanted, "{told}");
        assert!(mine == bytes(rack), "{told}: other bytes");
    }
}

#[test]
fn changes_from_empty_racks() {
    for (place, settings) in all() {
        for (n, lists, number) in [(2, 2, 60), (6, 10, 200), (20, 4, 400), (60, 1, 500)] {
            for list in 0..lists {
                let mut random = Random::new(0xa2_0000 + 10_000 * place + 100 * n as u64 + list);
                let told = format!("{settings:?}, {n} vertices, list {list}");
                let mut rack = Rack::empty_with(settings, n);
                changes(&mut random, &mut rack, 2 * number / 3, 85, &told);
                changes(&mut random, &mut rack, number / 3, 35, &told);
            }
        }
    }
}

#[test]
fn changes_from_random_racks() {
    for (place, settings) in all() {
        for seed in 0..700 {
            let mut random = Random::new(0xa3_0000 + 10_000 * place + seed);
            let n = match seed {
                0..=3 => random.between(70, 256),
                4..=30 => random.between(17, 69),
                _ => random.between(1, 16),
            };
            let mut rack = sound_rack(&mut random, settings, n);
            let told = format!("{settings:?}, {n} vertices, seed {seed}");
            changes(&mut random, &mut rack, 4, 45, &told);
        }
    }
}

/// A vertex that gets one neighbour after the other, up to the most that there may
/// be, and then loses its mate time and again.
#[test]
fn changes_of_hubs() {
    for (place, settings) in all() {
        let mut random = Random::new(0xa4_0000 + place);
        let n = if place % 4 == 3 { 256 } else { 80 };
        let mut rack = Rack::empty_with(settings, n);
        let mut mine = bytes(&rack);
        let words: Vec<u32> = (0..128).map(|_| random.word()).collect();
        for step in 0..n + 20 {
            let mate = rack.mate[0].unwrap_or(1);
            let (code, b) = if step + 1 < n {
                (1, step + 1)
            } else {
                (2, mate)
            };
            let (wanted, _) = change_rack(&mut rack, code, 0, b as u32, &words);
            let came = tuned::change_sound(&mut mine, code, 0, b as u32, &words);
            let told = format!("{settings:?}, step {step}");
            assert_eq!(
                (came.number, came.draws),
                (wanted.number, wanted.draws),
                "{told}"
            );
            assert!(mine == bytes(&rack), "{told}: other bytes");
        }
        assert!(tuned::audit(&mine), "{settings:?}");
    }
}
