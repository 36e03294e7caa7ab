//! Traces grown along a rack: of few boards, of many, around hubs that reach
//! the highest level, of many pairs, and fans, in which one drop draws and falls
//! by the dozen.

use super::trace::{words, Style, Trace, STYLES};
use super::{Case, Family};
use reference::checks::random::Random;
use reference::TEXT_LIMIT;

/// The ribs of the largest fan whose trace has room for its opening.
const MOST_RIBS: u64 = 10;

/// The most boards at which a trace has room for a hub at level 3.
const MOST_AT_TOP: usize = 230;

pub fn families() -> Vec<Family> {
    vec![
        Family::new("traces of 1 to 16 boards", 1_200, &[0], |k| grown(k, 1, 16)),
        Family::new("traces of 17 to 64 boards", 120, &[0], |k| grown(k, 17, 64)),
        Family::new("traces of 65 to 256 boards", 40, &[0], |k| {
            grown(k, 65, 256)
        }),
        Family::new("traces around hubs", 90, &[0], hub),
        Family::new("traces of many pairs", 30, &[0], many_pairs),
        Family::new("traces of fans", 3 * MOST_RIBS, &[0], fan),
    ]
}

impl From<Trace> for Case {
    fn from(trace: Trace) -> Case {
        Case {
            top: trace.top,
            ..Case::of(trace.text)
        }
    }
}

/// Random changes, as many as there is room for.
fn grown(seed: u64, least: usize, most: usize) -> Case {
    let mut random = Random::new(0x2000_0000 + seed);
    let n = random.between(least, most);
    let limit = match random.below(4) {
        0 => TEXT_LIMIT,
        _ => random.between(18, TEXT_LIMIT),
    };
    let style = random.pick(&STYLES);
    let adds = random.pick(&[55, 70, 90]);
    let mut trace = Trace::start_any(&mut random, n, limit);
    while trace.any(&mut random, style, adds).is_some() {}
    trace.into()
}

/// A hub is linked to one board after the other until it is at level 3; then
/// its pair is dropped time and again, among other changes.
fn hub(seed: u64) -> Case {
    let mut random = Random::new(0x2100_0000 + seed);
    let n = match seed {
        0 => MOST_AT_TOP,
        _ => random.between(65, 200),
    };
    let style = match seed {
        0 => Style::Short,
        _ => random.pick(&[Style::Short, Style::FirstLong]),
    };
    let hub = random.below(n);
    let mut others: Vec<usize> = (0..n).filter(|&v| v != hub).collect();
    random.shuffle(&mut others);
    let mut trace = Trace::start(n, TEXT_LIMIT);
    for other in others {
        let words = words(&mut random, style, n / 2);
        let ends = random.pick(&[(hub, other), (other, hub)]);
        let added = trace.change(1, ends.0, ends.1, &words);
        if added.is_none() || (trace.rack.level[hub] == 3 && random.percent(25)) {
            break;
        }
    }
    // Half of the traces end soon, with the hub still at level 3.
    let goes_on = random.pick(&[60, 100]);
    while random.percent(goes_on) && parted(&mut trace, &mut random, style, hub).is_some() {}
    trace.into()
}

/// Every board is linked to one other, in any order, and some pairs are dropped.
fn many_pairs(seed: u64) -> Case {
    let mut random = Random::new(0x2400_0000 + seed);
    let n = random.between(120, 170);
    let mut order: Vec<usize> = (0..n).collect();
    random.shuffle(&mut order);
    let mut trace = Trace::start(n, TEXT_LIMIT);
    for two in order.chunks_exact(2) {
        let words = words(&mut random, Style::Short, n / 2);
        trace.change(1, two[0], two[1], &words);
        if random.percent(4) {
            trace.change(2, two[1], two[0], &words);
        }
    }
    trace.into()
}

/// The hub's pair is dropped, or some other change is made.
fn parted(trace: &mut Trace, random: &mut Random, style: Style, hub: usize) -> Option<()> {
    let words = words(random, style, trace.rack.n / 2);
    let mate = trace.rack.mate[hub].filter(|_| random.percent(60));
    let answer = match mate {
        Some(mate) => trace.change(2, mate, hub, &words),
        None => trace.any(random, style, 80),
    };
    answer.map(|_| ())
}

/// Where the core of a fan begins and ends, how many of it a rib is linked to,
/// and the boards past the ribs.
const CORE: usize = 2;
const FIRST_RIB: usize = 16;
const SHARED: usize = 13;
const HELPERS: usize = 3;

/// A fan. Boards 2 to 15 are seven pairs at level 1, the core, and boards 0 and 1
/// a pair at level 2. A rib and its mate are at level 0; it is linked to 13 of
/// the core, its mate, one idle board, and board 0. When 0-1 is dropped, 0
/// falls, by which every rib gets a sixteenth neighbour below level 2 and rises;
/// most draw the idle board, so that their mates fall.
fn fan(seed: u64) -> Case {
    let mut random = Random::new(0x2200_0000 + seed);
    let ribs = 1 + seed as usize % MOST_RIBS as usize;
    let n = FIRST_RIB + 3 * ribs + HELPERS;
    let mut trace = Trace::start(n, TEXT_LIMIT);
    for c in (CORE..FIRST_RIB).step_by(2) {
        lift(&mut trace, c, c + 1, n - HELPERS..n);
    }
    let neighbours = (CORE..FIRST_RIB).chain(n - 1..n);
    lift(&mut trace, 0, 1, neighbours.clone());
    for neighbour in neighbours {
        trace.change(2, 0, neighbour, &vec![0; n / 2]);
    }
    for rib in (FIRST_RIB..n - HELPERS).step_by(3) {
        let core = CORE..CORE + SHARED;
        for neighbour in [rib + 1, rib + 2, 0].into_iter().chain(core) {
            link(&mut trace, rib, neighbour);
        }
    }
    open(&mut trace, &mut random);
    while trace.any(&mut random, Style::FirstLong, 50).is_some() {}
    trace.into()
}

fn link(trace: &mut Trace, a: usize, b: usize) {
    let words = vec![0; trace.rack.n / 2];
    trace.change(1, a, b, &words);
}

/// Links a to so many boards that with b it reaches the next level; it draws b,
/// the lowest of them.
fn lift(trace: &mut Trace, a: usize, b: usize, others: impl Iterator<Item = usize>) {
    for other in others {
        link(trace, a, other);
    }
    link(trace, a, b);
}

/// The drop of 0-1. The idle board of a rib stands after 0, the core and the
/// rib's mate.
fn open(trace: &mut Trace, random: &mut Random) {
    let others = random.pick(&[0, 0, 20]);
    let words: Vec<u32> = (0..trace.rack.n / 2)
        .map(|_| match random.percent(others) {
            true => random.below(100) as u32,
            false => SHARED as u32 + 2,
        })
        .collect();
    trace.change(2, 1, 0, &words);
}
