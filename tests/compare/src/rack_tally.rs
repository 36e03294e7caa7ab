//! What making, the audit and the queries came to.

use crate::both;
use crate::rosters::Rosters;
use crate::tally::Seen;
use crate::Verdict;
use reference::checks::random::Random;
use reference::{Settings, IDLE};

/// What was asked, and what came.
pub struct Tally {
    audited: Seen<u32>,
    pub audits: Seen<bool>,
    /// The growth and the top level of sound racks.
    settings: Seen<(usize, i32)>,
    level_numbers: Seen<u32>,
    levels: Seen<i32>,
    mate_numbers: Seen<u32>,
    /// Whether there is a mate.
    mates: Seen<bool>,
    pub link_numbers: Seen<u32>,
    links: Seen<u32>,
    rosters: Rosters,
}

impl Tally {
    pub fn new() -> Tally {
        Tally {
            audited: Seen::of("number", [0, 1]),
            audits: Seen::of("audit", [true, false]),
            settings: Seen::of("settings", Settings::all().map(|one| (one.growth, one.top))),
            level_numbers: Seen::of("number", [0, 1, 6, 8]),
            levels: Seen::of("level", -1..=3),
            mate_numbers: Seen::of("number", [0, 1, 6, 8]),
            mates: Seen::of("mated", [true, false]),
            link_numbers: Seen::of("number", [0, 1, 6, 8, 9]),
            links: Seen::of("linked", [0, 1]),
            rosters: Rosters::of(&[0, 1, 6], 256),
        }
    }

    /// Prints a part and adds it.
    pub fn add(&mut self, what: &str, part: &Tally) {
        let Tally {
            audits,
            link_numbers,
            ..
        } = part;
        println!("{what}: {audits}; links by {link_numbers}: equal");
        self.audited.add(&part.audited);
        self.audits.add(&part.audits);
        self.settings.add(&part.settings);
        self.level_numbers.add(&part.level_numbers);
        self.levels.add(&part.levels);
        self.mate_numbers.add(&part.mate_numbers);
        self.mates.add(&part.mates);
        self.link_numbers.add(&part.link_numbers);
        self.links.add(&part.links);
        self.rosters.add(&part.rosters);
    }

    /// Prints the whole; an error if something that can come never did.
    pub fn all_came(&self) -> Verdict {
        println!("audits by {}; {}", self.audited, self.audits);
        println!("audits yes by {}", self.settings);
        println!("levels by {}; {}", self.level_numbers, self.levels);
        println!("mates by {}; {}", self.mate_numbers, self.mates);
        println!("links by {}; {}", self.link_numbers, self.links);
        let told = |of: &'static str| move |why| format!("{of}: {why}");
        self.audited.all_came().map_err(told("audits"))?;
        self.audits.all_came()?;
        self.settings.all_came()?;
        self.level_numbers.all_came().map_err(told("levels"))?;
        self.levels.all_came()?;
        self.mate_numbers.all_came().map_err(told("mates"))?;
        self.mates.all_came()?;
        self.link_numbers.all_came().map_err(told("links"))?;
        self.links.all_came()?;
        self.rosters.all_came()
    }

    /// The audit, which is told, and the queries on levels.
    pub fn look(&mut self, rack: &[u8]) -> Result<bool, String> {
        let (number, yes) = both::audit(rack)?;
        self.audited.note(number);
        self.audits.note(yes);
        if yes {
            self.settings
                .note((usize::from(rack[4]), i32::from(rack[5])));
        }
        self.rosters.ask(rack)?;
        Ok(yes)
    }

    /// The same and some queries on vertices.
    pub fn ask(&mut self, random: &mut Random, rack: &[u8], n: usize) -> Verdict {
        self.look(rack)?;
        for _ in 0..2 {
            let (v, w) = (vertex(random, n), vertex(random, n));
            let (number, level) = both::level(rack, v)?;
            self.level_numbers.note(number);
            let (number, mate) = both::mate(rack, v)?;
            self.mate_numbers.note(number);
            if number == 0 {
                self.levels.note(level);
                self.mates.note(mate != IDLE);
            }
            let (number, linked) = both::linked(rack, v, w)?;
            self.link_numbers.note(number);
            if number == 0 {
                self.links.note(linked);
            }
        }
        Ok(())
    }
}

/// A vertex to ask about: mostly one of the rack, at times none.
fn vertex(random: &mut Random, n: usize) -> u32 {
    match random.below(12) {
        0 => random.pick(&[n as u32, n as u32 + 1, 255, 256, 65_535, 65_536, u32::MAX]),
        _ => random.below(n) as u32,
    }
}
