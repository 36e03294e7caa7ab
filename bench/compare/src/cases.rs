//! What is measured: racks with so many edges, and series of changes. All of
//! it is made by the tuned program and the same in every run.

use crate::side::Change;
use tuned::{RackBytes, RACK_BYTES};

/// All edges among 256 vertices.
pub const DENSEST: usize = 32_640;

/// Changes of a long series, and racks along it that are kept for direct
/// changes.
pub const SERIES: usize = 8_192;
pub const DIRECT: usize = 256;

/// Words in the common store.
const STORE: usize = 4_096;

/// A small repeatable source of random numbers (splitmix64).
struct Random(u64);

impl Random {
    fn bits(&mut self) -> u64 {
        self.0 = self.0.wrapping_add(0x9e37_79b9_7f4a_7c15);
        let mut mixed = self.0;
        mixed = (mixed ^ (mixed >> 30)).wrapping_mul(0xbf58_476d_1ce4_e5b9);
        mixed = (mixed ^ (mixed >> 27)).wrapping_mul(0x94d0_49bb_1331_11eb);
        mixed ^ (mixed >> 31)
    }

    fn below(&mut self, k: usize) -> usize {
        (self.bits() % k as u64) as usize
    }
}

/// A rack of n vertices without edges. Everything is measured at the settings of the
/// short form, 4 and 3.
fn fresh(n: usize) -> RackBytes {
    let mut rack = [0; RACK_BYTES];
    tuned::make(&mut rack, n as u16);
    rack
}

/// How many vertices and edges a rack has.
#[derive(Clone, Copy)]
pub struct Size {
    pub n: usize,
    pub edges: usize,
}

impl Size {
    /// 256 vertices with so many edges.
    pub fn of_256(edges: usize) -> Size {
        Size { n: 256, edges }
    }

    /// n vertices with half of all edges.
    pub fn half(n: usize) -> Size {
        let edges = n * (n - 1) / 4;
        Size { n, edges }
    }

    /// n vertices with all edges.
    pub fn full(n: usize) -> Size {
        let edges = n * (n - 1) / 2;
        Size { n, edges }
    }
}

/// A rack of this size, its edges added in random order.
pub fn with_edges(size: Size) -> RackBytes {
    let Size { n, edges } = size;
    let mut random = Random(edges as u64);
    let vertices = 0..n as u32;
    let mut all: Vec<(u32, u32)> = vertices.flat_map(|v| (0..v).map(move |w| (v, w))).collect();
    let words: Vec<u32> = (0..128).map(|_| random.bits() as u32).collect();
    let mut rack = fresh(n);
    for last in (all.len() - edges..all.len()).rev() {
        let place = random.below(last + 1);
        all.swap(last, place);
        let (a, b) = all[last];
        tuned::change_sound(&mut rack, 1, a, b, &words);
    }
    rack
}

/// A rack of n vertices, each with an edge to the next and added in order: every
/// row but the last then has one edge.
pub fn chain(n: usize) -> RackBytes {
    let mut rack = fresh(n);
    for v in 1..n as u32 {
        tuned::change_sound(&mut rack, 1, v - 1, v, &[0; 128]);
    }
    rack
}

/// Each level of a rack of 256 vertices, with how many are there by their ranks.
pub fn counts_at_levels(rack: &RackBytes) -> [(i32, u32); 5] {
    let count = |level: i32| {
        let ranks = rack[8..264].iter();
        ranks.filter(|&&rank| i32::from(rank) == level + 1).count()
    };
    [-1, 0, 1, 2, 3].map(|level| (level, count(level) as u32))
}

/// A rack for each vertex that has a mate on it, with the drop of that pair.
pub struct Parted {
    pub racks: Vec<(RackBytes, Change)>,
    pub words: Vec<u32>,
}

impl Parted {
    /// The pairs of a rack of this size.
    pub fn of(size: Size) -> Parted {
        let rack = with_edges(size);
        let mut random = Random(size.edges as u64);
        let words = (0..128).map(|_| random.bits() as u32).collect();
        let drop = |a: usize| {
            let mate = mate(&rack, a);
            let change = Change {
                code: 2,
                a: a as u32,
                b: mate as u32,
                words_at: 0,
            };
            (mate < 256).then_some((rack, change))
        };
        Parted {
            racks: (0..size.n).filter_map(drop).collect(),
            words,
        }
    }

    /// The drops that draw, and how many words each of them uses.
    pub fn drawing(self) -> (Parted, Vec<usize>) {
        let Parted { racks, words } = self;
        let used = |(rack, change): (RackBytes, Change)| {
            let Change { code, a, b, .. } = change;
            let draws = tuned::change_sound(&mut rack.clone(), code, a, b, &words).draws;
            (draws > 0).then_some(((rack, change), draws as usize))
        };
        let (racks, used) = racks.into_iter().filter_map(used).unzip();
        (Parted { racks, words }, used)
    }
}

/// The mate of a vertex, 65,535 if it is free.
fn mate(rack: &RackBytes, v: usize) -> usize {
    let at = 264 + 2 * v;
    usize::from(u16::from_le_bytes([rack[at], rack[at + 1]]))
}

/// A series of accepted changes from an empty rack: it grows to the middle and
/// then stays about as it is.
pub struct Series {
    pub n: usize,
    length: usize,
    pub changes: Vec<Change>,
    pub words: Vec<u32>,
    /// A rack here and there along the series, with the place of its change.
    pub racks: Vec<(RackBytes, usize)>,
    /// The rack at the end.
    pub end: RackBytes,
}

impl Series {
    /// A long series on n vertices.
    pub fn of(n: usize) -> Series {
        Series::of_length(n, SERIES)
    }

    pub fn of_length(n: usize, length: usize) -> Series {
        let mut random = Random(n as u64);
        let words = (0..STORE).map(|_| random.bits() as u32).collect();
        let mut series = Series {
            n,
            length,
            changes: Vec::with_capacity(length),
            words,
            racks: Vec::with_capacity(DIRECT),
            end: fresh(n),
        };
        let mut walk = Walk {
            rack: fresh(n),
            edges: Vec::new(),
        };
        while series.changes.len() < length {
            series.extend(&mut random, &mut walk);
        }
        series.end = walk.rack;
        series
    }

    pub fn start(&self) -> RackBytes {
        fresh(self.n)
    }

    /// The words of a change, as many as it may have new pairs.
    pub fn words(&self, change: &Change) -> &[u32] {
        self.more_words(change, self.n / 2)
    }

    /// So many words from the place of those of a change on.
    pub fn more_words(&self, change: &Change, number: usize) -> &[u32] {
        &self.words[change.words_at..change.words_at + number]
    }

    /// Tries one change on the walk, and takes it into the series if it is
    /// accepted.
    fn extend(&mut self, random: &mut Random, walk: &mut Walk) {
        let place = self.changes.len();
        let adds = if place < self.length / 2 { 75 } else { 50 };
        let (code, a, b) = walk.choose(random, self.n, adds);
        let words_at = random.below(STORE - 128);
        let change = Change {
            code,
            a,
            b,
            words_at,
        };
        let before = walk.rack;
        let answer = tuned::change_sound(&mut walk.rack, code, a, b, self.words(&change));
        if answer.number != 0 {
            return;
        }
        walk.note(code, a, b);
        if place % (SERIES / DIRECT) == SERIES / DIRECT / 2 {
            self.racks.push((before, place));
        }
        self.changes.push(change);
    }
}

/// A rack on its way, and its edges.
struct Walk {
    rack: RackBytes,
    edges: Vec<(u32, u32)>,
}

impl Walk {
    /// An add of any two vertices, or a drop: of a pair in half of the cases,
    /// so that vertices draw and fall.
    fn choose(&self, random: &mut Random, n: usize, adds: usize) -> (u32, u32, u32) {
        if self.edges.is_empty() || random.below(100) < adds {
            return (1, random.below(n) as u32, random.below(n) as u32);
        }
        let v = random.below(n);
        let mate = mate(&self.rack, v);
        if random.below(2) == 0 && mate < n {
            return (2, v as u32, mate as u32);
        }
        let (a, b) = self.edges[random.below(self.edges.len())];
        (2, a, b)
    }

    fn note(&mut self, code: u32, a: u32, b: u32) {
        let edge = (a.min(b), a.max(b));
        if code == 1 {
            self.edges.push(edge);
        } else {
            self.edges.retain(|&other| other != edge);
        }
    }
}
