//! Racks to try calls on: of all sizes, reached by changes, sound at random, as
//! dense as can be, and forks, whose pairs have others to draw from.

use crate::asked::Asked;
use reference::calls::change_rack;
use reference::checks::makers::{drawn_with, sound_rack};
use reference::checks::random::Random;
use reference::{Rack, Settings};

/// How a rack came about.
#[derive(Clone, Copy, Debug, PartialEq, Eq)]
pub enum Kind {
    Reached,
    Random,
    Dense,
    Forks,
}

/// A number of vertices: mostly few, since the plain program is slow, but any
/// from 1 to 256 may come.
pub fn size(random: &mut Random) -> usize {
    match random.below(400) {
        0 => 256,
        1 => random.between(65, 255),
        2..=11 => random.between(17, 64),
        _ => random.between(1, 16),
    }
}

/// A rack of n vertices of one kind, by the short form of making.
pub fn rack(random: &mut Random, n: usize, kind: Kind) -> Rack {
    rack_with(random, Settings::SHORT, n, kind)
}

/// The same at any settings.
pub fn rack_with(random: &mut Random, settings: Settings, n: usize, kind: Kind) -> Rack {
    match kind {
        Kind::Reached => reached(random, settings, n),
        Kind::Random => sound_rack(random, settings, n),
        Kind::Dense => dense(random, settings, n),
        Kind::Forks => forks(random, settings, n),
    }
}

/// The rack after a random list of changes from an empty one, mostly adds.
fn reached(random: &mut Random, settings: Settings, n: usize) -> Rack {
    let mut rack = Rack::empty_with(settings, n);
    let most = (n * n / 4).clamp(3, 400);
    for _ in 0..random.between(0, most) {
        let asked = Asked::any(random, &rack, 80);
        change_rack(&mut rack, asked.code, asked.a, asked.b, &asked.words);
    }
    rack
}

/// A rack of pairs at levels from 1 to the top, each end of which has up to fifteen
/// neighbours of its own at level -1, or up to three if it is at level 1; fewer if
/// these would reach the next level. An end that loses its mate draws from those, so
/// that their number is often no power of two.
fn forks(random: &mut Random, settings: Settings, n: usize) -> Rack {
    let top = settings.top as usize;
    let mut free: Vec<usize> = (0..n).collect();
    random.shuffle(&mut free);
    let (mut pairs, mut edges) = (Vec::new(), Vec::new());
    while free.len() > 1 {
        let (one, other) = (free.pop().expect("two"), free.pop().expect("one"));
        let level = random.between(1.min(top), top);
        pairs.push((one, other, level as i32));
        edges.push((one, other));
        // The mate counts too.
        let next = settings.threshold(level as i32 + 1) - 2;
        let most = match level {
            1 => 3.min(next),
            _ if level == top => 15,
            _ => 15.min(next),
        };
        edges.extend(tines(random, &mut free, one, most));
        edges.extend(tines(random, &mut free, other, most));
    }
    drawn_with(settings, n, &pairs, &edges)
}

/// The edges of an end of a pair to at most so many neighbours of its own.
fn tines(
    random: &mut Random,
    free: &mut Vec<usize>,
    end: usize,
    most: usize,
) -> Vec<(usize, usize)> {
    let number = random.between(1, most).min(free.len());
    let own = free.split_off(free.len() - number);
    own.into_iter().map(|v| (end, v)).collect()
}

/// A rack in which nearly all vertices are mated at the top level and nearly all
/// edges are there, each with either end as its owner. Vertices left free have
/// edges to mated ones only.
fn dense(random: &mut Random, settings: Settings, n: usize) -> Rack {
    let mut order: Vec<usize> = (0..n).collect();
    random.shuffle(&mut order);
    let free = if random.percent(50) {
        0
    } else {
        random.below(n) / 8
    };
    let mated = (n - free) / 2 * 2;
    let pairs: Vec<(usize, usize, i32)> = order[..mated]
        .chunks(2)
        .map(|two| (two[0], two[1], settings.top))
        .collect();
    let share = random.pick(&[90, 99, 100]);
    let mut edges = Vec::new();
    for (k, &v) in order[..mated].iter().enumerate() {
        for (l, &w) in order.iter().enumerate().skip(k + 1) {
            let pair = k % 2 == 0 && l == k + 1;
            if pair || random.percent(share) {
                let owner = l >= mated || random.percent(50);
                edges.push(if owner { (v, w) } else { (w, v) });
            }
        }
    }
    drawn_with(settings, n, &pairs, &edges)
}
