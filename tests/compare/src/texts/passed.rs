//! Traces in which a line's words are passed over, up to all of them: a hub loses
//! its mate time and again, and each time draws from one neighbour fewer.

use super::trace::{Trace, MOST_WORDS};
use super::{Case, Family};
use reference::checks::random::Random;
use reference::TEXT_LIMIT;

pub fn families() -> Vec<Family> {
    let numbers = MOST_WORDS as u64 + 1;
    vec![Family::new(
        "lines of words passed over",
        3 * numbers,
        &[0],
        move |k| parted(k, (k % numbers) as usize),
    )]
}

/// The neighbours that are left when the hub loses its first mate: for each of
/// these numbers the highest word is passed over.
const LEFT: [usize; 12] = [3, 5, 6, 7, 9, 10, 11, 12, 13, 14, 15, 20];

/// So many words are passed over when the hub loses its first mate.
fn parted(seed: u64, first: usize) -> Case {
    let mut random = Random::new(0x2600_0000 + seed);
    let (mut trace, hub) = linked_hub(&mut random);
    let mut passed = first;
    while let Some(mate) = trace.rack.mate[hub] {
        let words = words(&mut random, passed);
        if trace.change(2, mate, hub, &words).is_none() {
            break;
        }
        passed = random.below(MOST_WORDS + 1);
    }
    trace.into()
}

/// A hub linked to as many boards as are to be left and one more, its first mate.
fn linked_hub(random: &mut Random) -> (Trace, usize) {
    let left = random.pick(&LEFT);
    let n = left + 2 + random.below(4);
    let mut order: Vec<usize> = (0..n).collect();
    random.shuffle(&mut order);
    let hub = order[0];
    let mut trace = Trace::start(n, TEXT_LIMIT);
    for &other in &order[1..left + 2] {
        trace.change(1, hub, other, &[0, 0]);
    }
    (trace, hub)
}

/// So many words that are passed over and, if there is room, one that chooses.
fn words(random: &mut Random, passed: usize) -> Vec<u32> {
    let mut words = vec![u32::MAX; passed];
    if passed < MOST_WORDS {
        words.push(random.below(100) as u32);
    }
    words
}
