//! The bench cases P1 to P11 of document 01, with the figures that it states; P9 as
//! document 02 changes it.

use crate::asked::Asked;
use crate::both::{self, same, Twin};
use crate::rosters::LEVELS;
use crate::Verdict;
use reference::{Answer, Rack};

/// A change: its code, two vertices and words, and its number, draws, falls
/// and pairs.
type Step = ([u32; 3], &'static [u32], [u32; 4]);

/// A case: vertices, changes from an empty rack, and the pairs at the end with
/// their level.
struct Case {
    name: &'static str,
    n: usize,
    steps: &'static [Step],
    pairs: &'static [(usize, usize, i32)],
}

const LINK_01: Step = ([1, 0, 1], &[0, 0], [0, 1, 0, 1]);
const LINK_02: Step = ([1, 0, 2], &[0, 0], [0, 0, 0, 1]);
const LINK_03: Step = ([1, 0, 3], &[0, 0], [0, 0, 0, 1]);
const LINK_04: Step = ([1, 0, 4], &[2, 0], [0, 1, 1, 1]);
const LINK_13: Step = ([1, 1, 3], &[0, 0], [0, 0, 0, 1]);

const CASES: [Case; 10] = [
    Case {
        name: "P1",
        n: 1,
        steps: &[
            ([1, 0, 0], &[], [9, 0, 0, 0]),
            ([1, 0, 1], &[], [8, 0, 0, 0]),
        ],
        pairs: &[],
    },
    Case {
        name: "P2",
        n: 2,
        steps: &[([1, 0, 1], &[7], [0, 1, 0, 1])],
        pairs: &[(0, 1, 0)],
    },
    Case {
        name: "P3",
        n: 5,
        steps: &[LINK_01, LINK_02, LINK_03],
        pairs: &[(0, 1, 0)],
    },
    Case {
        name: "P4",
        n: 5,
        steps: &[LINK_01, LINK_02, LINK_03, LINK_04],
        pairs: &[(0, 3, 1)],
    },
    Case {
        name: "P5",
        n: 5,
        steps: &[
            LINK_01,
            LINK_02,
            LINK_03,
            ([1, 0, 4], &[4, 0], [0, 1, 0, 1]),
        ],
        pairs: &[(0, 1, 1)],
    },
    Case {
        name: "P6",
        n: 5,
        steps: &[
            LINK_01,
            LINK_02,
            LINK_03,
            LINK_04,
            ([2, 0, 3], &[5, 0], [0, 1, 3, 1]),
        ],
        pairs: &[(0, 4, 0)],
    },
    Case {
        name: "P7",
        n: 5,
        steps: &[
            LINK_01,
            LINK_02,
            LINK_03,
            LINK_04,
            ([2, 0, 1], &[0, 0], [0, 0, 0, 1]),
        ],
        pairs: &[(0, 3, 1)],
    },
    Case {
        name: "P8",
        n: 4,
        steps: &[
            LINK_01,
            LINK_02,
            LINK_13,
            ([2, 0, 1], &[0, 0], [0, 2, 0, 2]),
        ],
        pairs: &[(0, 2, 0), (1, 3, 0)],
    },
    Case {
        name: "P9",
        n: 5,
        steps: &[
            ([1, 0, 1], &[], [12, 0, 0, 0]),
            ([1, 0, 1], &[0], [0, 1, 0, 1]),
        ],
        pairs: &[(0, 1, 0)],
    },
    Case {
        name: "P10",
        n: 5,
        steps: &[LINK_01, LINK_02, LINK_03, ([1, 1, 0], &[], [10, 0, 0, 0])],
        pairs: &[(0, 1, 0)],
    },
];

impl Case {
    /// Makes the changes on both sides, each with the figures stated.
    fn play(&self) -> Result<Twin, String> {
        let mut twin = Twin::start(Rack::empty(self.n));
        for ([code, a, b], words, [number, draws, falls, pairs]) in self.steps {
            let asked = Asked {
                code: *code,
                a: *a,
                b: *b,
                words: words.to_vec(),
            };
            let stated = Answer {
                number: *number,
                draws: u64::from(*draws),
                falls: *falls,
                pairs: *pairs,
            };
            let answer = twin.change(&asked)?.answer;
            same("the figures stated", answer, stated)?;
        }
        Ok(twin)
    }

    /// How many vertices are at a level at the end: two of each pair there, and at
    /// -1 all that are in none.
    fn standing(&self, level: i32) -> u32 {
        let paired = 2 * self.pairs.iter().filter(|pair| pair.2 == level).count();
        match level {
            -1 => (self.n - 2 * self.pairs.len()) as u32,
            _ => paired as u32,
        }
    }

    /// Asks for every level, mate, link and roster at the end.
    fn ask(&self, rack: &[u8]) -> Verdict {
        same("the audit", both::audit(rack)?, (0, true))?;
        for v in 0..self.n {
            let pair = self.pairs.iter().find(|(a, b, _)| *a == v || *b == v);
            let (mate, at) = pair.map_or((65_535, -1), |(a, b, level)| (a + b - v, *level));
            same("the level stated", both::level(rack, v as u32)?, (0, at))?;
            same(
                "the mate stated",
                both::mate(rack, v as u32)?,
                (0, mate as u32),
            )?;
            for w in 0..=self.n {
                both::linked(rack, v as u32, w as u32)?;
            }
        }
        let stated = LEVELS.map(|level| (0, self.standing(level)));
        same("the rosters stated", both::rosters(rack, LEVELS)?, stated)
    }
}

/// The rack after P3 with both bits of the link 0-1 set.
fn doubly_owned() -> Result<Vec<u8>, String> {
    let third = CASES.iter().find(|case| case.name == "P3");
    let mut rack = third.expect("P3").play()?.rack;
    rack.owner[0][1] = true;
    rack.owner[1][0] = true;
    Ok(rack.to_bytes())
}

/// All changes of P1 to P11.
pub fn changes() -> Verdict {
    for case in &CASES {
        case.play().map_err(|why| format!("{}: {why}", case.name))?;
    }
    let asked = Asked {
        code: 2,
        a: 0,
        b: 1,
        words: vec![0, 0],
    };
    let answer = both::change(&doubly_owned()?, &asked)?.answer;
    same("P11, change", answer, Answer::refused(6))
}

/// The levels, mates, links and rosters after P1 to P10, and the audit and
/// queries of P11.
pub fn queries() -> Verdict {
    for case in &CASES {
        let rack = case.play()?.rack.to_bytes();
        case.ask(&rack)
            .map_err(|why| format!("{}: {why}", case.name))?;
    }
    let rack = doubly_owned()?;
    same("P11, audit", both::audit(&rack)?, (0, false))?;
    for v in 0..6 {
        same("P11, level", both::level(&rack, v)?, (6, 0))?;
        same("P11, mate", both::mate(&rack, v)?, (6, 0))?;
        same("P11, link", both::linked(&rack, v, 1)?, (6, 0))?;
    }
    let wanted = LEVELS.map(|_| (6, 0));
    same("P11, rosters", both::rosters(&rack, LEVELS)?, wanted)
}
