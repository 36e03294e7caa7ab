//! Racks with few links and with many, by which the mean of the end line goes up:
//! small ones with every number of links, and every size with as many links as a
//! text has room for.

use super::trace::{words, Style, Trace};
use super::{Case, Family};
use reference::checks::random::Random;
use reference::TEXT_LIMIT;

/// The most boards for which every number of links is tried.
const SMALL: usize = 16;

pub fn families() -> Vec<Family> {
    let small: Vec<(usize, usize)> = (1..=SMALL)
        .flat_map(|n| (0..=all_links(n)).map(move |links| (n, links)))
        .collect();
    let cases = small.len() as u64;
    vec![
        Family::new("every number of links, 1 to 16 boards", cases, &[0], {
            move |k| {
                let (n, links) = small[k as usize];
                linked(k, n, links)
            }
        }),
        Family::new("racks as full as a text makes them", 256, &[0], |k| {
            let n = k as usize + 1;
            linked(k, n, all_links(n))
        }),
    ]
}

/// The links of a rack in which every two boards are linked.
fn all_links(n: usize) -> usize {
    n * (n - 1) / 2
}

/// So many links, or as many as there is room for, in any order.
fn linked(seed: u64, n: usize, links: usize) -> Case {
    let mut random = Random::new(0x2500_0000 + seed);
    let mut ends: Vec<(usize, usize)> = (0..n).flat_map(|b| (0..b).map(move |a| (a, b))).collect();
    random.shuffle(&mut ends);
    let mut trace = Trace::start(n, TEXT_LIMIT);
    for &(a, b) in &ends[..links] {
        let words = words(&mut random, Style::Short, n / 2);
        if trace.change(1, a, b, &words).is_none() {
            break;
        }
    }
    trace.into()
}
