//! A change to ask for, chosen at random for a rack.

use reference::checks::random::Random;
use reference::Rack;

/// What a change brings.
#[derive(Clone, Debug)]
pub struct Asked {
    pub code: u32,
    pub a: u32,
    pub b: u32,
    pub words: Vec<u32>,
}

impl Asked {
    /// A change mostly accepted, an add in so many of a hundred cases.
    pub fn any(random: &mut Random, rack: &Rack, adds: usize) -> Asked {
        let (code, a, b) = match random.below(100) {
            0..=3 => odd(random, rack.n),
            _ if random.percent(adds) => add(random, rack),
            _ => drop(random, rack),
        };
        Asked {
            code,
            a,
            b,
            words: random.words_for(rack.n),
        }
    }
}

/// Any code with vertices that are often the same, or none of the rack.
fn odd(random: &mut Random, n: usize) -> (u32, u32, u32) {
    let code = random.pick(&[0, 1, 1, 2, 2, 3, 257, u32::MAX]);
    let n = n as u32;
    let ends = [0, n - 1, n / 2, n, n + 1, 255, 256, 65_535, u32::MAX];
    (code, random.pick(&ends), random.pick(&ends))
}

/// Mostly an edge that isn't there yet. Few vertices take part in half of the
/// adds, so that high levels are reached.
fn add(random: &mut Random, rack: &Rack) -> (u32, u32, u32) {
    let hubs = if random.percent(50) {
        rack.n.min(4)
    } else {
        rack.n
    };
    let a = random.below(hubs);
    let ends = [(); 4].map(|()| random.below(rack.n));
    let apart = |b: &&usize| a != **b && !rack.linked(a, **b);
    let b = *ends.iter().find(apart).unwrap_or(&ends[0]);
    either(random, 1, a, b)
}

/// Mostly an edge that is there: any edge of a vertex, any pair, or a pair of
/// the highest level.
fn drop(random: &mut Random, rack: &Rack) -> (u32, u32, u32) {
    let a = match random.below(3) {
        0 => highest(random, rack),
        _ => random.below(rack.n),
    };
    let neighbours = rack.neighbours_below(a, 4);
    let b = match rack.mate[a] {
        Some(mate) if random.percent(50) => mate,
        _ if neighbours.is_empty() => random.below(rack.n),
        _ => random.pick(&neighbours),
    };
    either(random, 2, a, b)
}

/// A vertex of the highest level there is.
fn highest(random: &mut Random, rack: &Rack) -> usize {
    let top = rack.level.iter().max();
    let all: Vec<usize> = (0..rack.n)
        .filter(|&v| top == Some(&rack.level[v]))
        .collect();
    random.pick(&all)
}

/// The two ends in either order.
fn either(random: &mut Random, code: u32, a: usize, b: usize) -> (u32, u32, u32) {
    let (a, b) = (a as u32, b as u32);
    if random.percent(50) {
        (code, a, b)
    } else {
        (code, b, a)
    }
}
