//! Every value of each of bytes 4 to 7 on racks of all settings: without edges, with
//! edges, and with a vertex that has just one neighbour too few for level 1.

use crate::both::{self, same};
use crate::lifts::lift;
use crate::rack_tally::Tally;
use crate::racks::{self, Kind};
use crate::tally::Seen;
use crate::Verdict;
use reference::checks::random::Random;
use reference::{Rack, Settings};

/// The bytes: growth, top level, and two that are zero.
const PLACES: std::ops::Range<usize> = 4..8;

/// The audits by byte and value: those that say yes, and those that say no.
pub struct Values {
    yes: Seen<(usize, u8)>,
    no: Seen<(usize, u8)>,
}

impl Values {
    /// Yes can only be said of settings in range and of zeros. No can be said of all
    /// values but the highest growth, by which every threshold is at least what it was,
    /// and the zeros.
    fn new() -> Values {
        let may_be = |&(at, value): &(usize, u8)| match at {
            4 => (2..=8).contains(&value),
            5 => value <= 3,
            _ => value == 0,
        };
        let all = || PLACES.flat_map(|at| (0..=255).map(move |value| (at, value)));
        let never_no = [(4, 8), (6, 0), (7, 0)];
        Values {
            yes: Seen::of("yes with byte", all().filter(may_be)),
            no: Seen::of("no with byte", all().filter(|one| !never_no.contains(one))),
        }
    }

    /// All values on one rack.
    fn on(&mut self, rack: &[u8], tally: &mut Tally) -> Verdict {
        for at in PLACES {
            let mut bytes = rack.to_vec();
            for value in 0..=255 {
                bytes[at] = value;
                let told = |why| format!("byte {at} being {value}: {why}");
                let yes = tally.look(&bytes).map_err(told)?;
                let seen = if yes { &mut self.yes } else { &mut self.no };
                seen.note((at, value));
            }
        }
        Ok(())
    }
}

pub fn all(whole: &mut Tally) -> Verdict {
    let mut values = Values::new();
    let mut part = Tally::new();
    for (place, settings) in (0..).zip(Settings::all()) {
        let mut random = Random::new(0x9000_0000 + place);
        let n = random.between(5, 9);
        let told = |why| format!("{settings:?}, {n} boards: {why}");
        let empty = Rack::empty_with(settings, n).to_bytes();
        let linked = linked(&mut random, settings, n).to_bytes();
        let (full, _) = lift((settings, -1, settings.top.min(1)), 0);
        for rack in [empty, linked, full.bytes] {
            same("the audit", both::audit(&rack)?, (0, true)).map_err(told)?;
            values.on(&rack, &mut part).map_err(told)?;
        }
    }
    whole.add("every value of bytes 4 to 7 at all settings", &part);
    println!(
        "{} values of these bytes with yes, {} or more times each, {} with no",
        values.yes.kinds(),
        values.yes.least(),
        values.no.kinds()
    );
    values.yes.all_came()?;
    values.no.all_came()
}

/// A rack that has edges.
fn linked(random: &mut Random, settings: Settings, n: usize) -> Rack {
    let kinds = [Kind::Reached, Kind::Random, Kind::Dense, Kind::Forks];
    loop {
        let kind = random.pick(&kinds);
        let rack = racks::rack_with(random, settings, n, kind);
        if rack.link_number() > 2 {
            return rack;
        }
    }
}
