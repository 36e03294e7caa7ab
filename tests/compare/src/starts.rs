//! Racks to start changes from: empty ones, and racks of each kind.

use crate::racks::Kind;

/// Lists of changes from an empty rack: vertices, lists, changes of each.
pub type List = (usize, u64, usize);

/// Lists of the short form. Few are large, since the independent program takes
/// milliseconds for those.
pub const LISTS: [List; 11] = [
    (1, 2, 100),
    (2, 10, 300),
    (3, 20, 400),
    (4, 40, 400),
    (6, 60, 500),
    (8, 60, 500),
    (13, 20, 600),
    (25, 8, 800),
    (70, 2, 1_000),
    (140, 1, 900),
    (256, 1, 800),
];

/// Lists for each growth and top level.
pub const LISTS_OF_EACH: [List; 6] = [
    (2, 1, 60),
    (4, 1, 200),
    (7, 2, 250),
    (13, 1, 300),
    (30, 1, 200),
    (72, 1, 100),
];

/// Racks of a kind to start from, half of them of the short form and the others of any
/// settings.
pub struct Start {
    pub name: &'static str,
    pub kind: Kind,
    pub racks: u64,
    pub changes: usize,
    /// The least and the most vertices; none for any size, mostly few.
    pub sizes: Option<(usize, usize)>,
    pub first_seed: u64,
}

pub const STARTS: [Start; 7] = [
    Start {
        name: "random racks",
        kind: Kind::Random,
        racks: 40_000,
        changes: 4,
        sizes: None,
        first_seed: 0x1100_0000,
    },
    Start {
        name: "dense racks",
        kind: Kind::Dense,
        racks: 8_000,
        changes: 4,
        sizes: None,
        first_seed: 0x1200_0000,
    },
    Start {
        name: "dense racks of 5 to 12 boards",
        kind: Kind::Dense,
        racks: 1_400,
        changes: 40,
        sizes: Some((5, 12)),
        first_seed: 0x1900_0000,
    },
    Start {
        name: "forks of 8 to 40 boards",
        kind: Kind::Forks,
        racks: 5_500,
        changes: 5,
        sizes: Some((8, 40)),
        first_seed: 0x1b00_0000,
    },
    Start {
        name: "random racks of 17 to 64 boards",
        kind: Kind::Random,
        racks: 3_500,
        changes: 6,
        sizes: Some((17, 64)),
        first_seed: 0x1300_0000,
    },
    Start {
        name: "random racks of 65 to 256 boards",
        kind: Kind::Random,
        racks: 450,
        changes: 6,
        sizes: Some((65, 256)),
        first_seed: 0x1400_0000,
    },
    Start {
        name: "dense racks of 65 to 256 boards",
        kind: Kind::Dense,
        racks: 200,
        changes: 6,
        sizes: Some((65, 256)),
        first_seed: 0x1500_0000,
    },
];
