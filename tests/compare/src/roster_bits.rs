//! The rosters of racks of every size: every single bit turned, and every vertex
//! moved to each other roster. None of these racks is sound, so the audit says no,
//! every other call is turned back by 6, and the bytes stay.

use crate::asked::Asked;
use crate::both::{self, guarded, same, same_bytes};
use crate::damage::roster_damage::turn;
use crate::racks::{self, Kind};
use crate::Verdict;
use reference::calls::change_rack;
use reference::checks::random::Random;
use reference::Rack;

/// The sizes, and their sum.
const MOST: usize = 256;
const VERTICES: u64 = 32_896;

/// What was tried on all racks.
#[derive(Debug, Default, PartialEq)]
struct Tried {
    /// Bits turned by which a vertex leaves its roster, those by which it comes
    /// into a second one, and those from n on.
    left: u64,
    second: u64,
    past: u64,
    /// Vertices moved to another roster.
    moved: u64,
}

/// All of it, each rack having five rosters with a bit for each of 256 vertices.
const ALL: Tried = Tried {
    left: VERTICES,
    second: 4 * VERTICES,
    past: 5 * (MOST * MOST) as u64 - 5 * VERTICES,
    moved: 4 * VERTICES,
};

pub fn all() -> Verdict {
    let mut tried = Tried::default();
    for n in 1..=MOST {
        let seed = 0x8000_0000 + n as u64;
        let mut random = Random::new(seed);
        let kind = random.pick(&[Kind::Random, Kind::Random, Kind::Dense]);
        let settings = random.settings();
        let rack = racks::rack_with(&mut random, settings, n, kind);
        let told = |why| format!("seed {seed:#x}, {n} boards, {settings:?}: {why}");
        let subject = Subject::of(&mut random, rack).map_err(told)?;
        subject.every_bit(&mut tried).map_err(told)?;
        subject.every_move(&mut tried).map_err(told)?;
    }
    same("what was tried", &tried, &ALL)?;
    tried.print();
    Ok(())
}

impl Tried {
    fn print(&self) {
        let Tried {
            left,
            second,
            past,
            moved,
        } = self;
        let bits = left + second + past;
        println!(
            "{bits} roster bits turned on racks of every size to {MOST}: {left} of a board at its \
             level, {second} at others, {past} from n on; {moved} boards moved to another roster"
        );
        let calls = (bits + moved) * CALLS;
        println!("{calls} calls on these racks, each audit no and all others turned back: equal");
    }
}

/// A sound rack, and what is asked of it when its rosters are damaged.
struct Subject {
    rack: Rack,
    bytes: Vec<u8>,
    /// A change that is accepted as long as the rack is sound; of one vertex none
    /// is.
    change: Asked,
    v: u32,
}

/// Levels to ask about: all that there are, and those next to them.
const LEVELS: [i32; 7] = [-2, -1, 0, 1, 2, 3, 4];

/// What the calls say, with each figure.
#[derive(Debug, PartialEq)]
struct Said {
    audit: (u32, u32),
    level: (u32, i32),
    mate: (u32, u32),
    linked: (u32, u32),
    rosters: [(u32, u32); LEVELS.len()],
    change: (u32, u64, u32, u32),
}

/// What they say of a rack that isn't sound, and how many they are.
const UNSOUND: Said = Said {
    audit: (0, 0),
    level: (6, 0),
    mate: (6, 0),
    linked: (6, 0),
    rosters: [(6, 0); LEVELS.len()],
    change: (6, 0, 0, 0),
};
const CALLS: u64 = 5 + LEVELS.len() as u64;

impl Subject {
    fn of(random: &mut Random, rack: Rack) -> Result<Subject, String> {
        let bytes = rack.to_bytes();
        same("the audit", both::audit(&bytes)?, (0, true))?;
        let mut change = Asked::any(random, &rack, 50);
        while rack.n > 1 && !accepted(&rack, &change) {
            change = Asked::any(random, &rack, 50);
        }
        both::change(&bytes, &change)?;
        let v = random.below(rack.n) as u32;
        Ok(Subject {
            rack,
            bytes,
            change,
            v,
        })
    }

    /// Turns each bit of the five rosters.
    fn every_bit(&self, tried: &mut Tried) -> Verdict {
        for level in -1..=3 {
            for v in 0..MOST {
                let told = |why| format!("bit of {v} at level {level} turned: {why}");
                self.damaged(&[(level, v)]).map_err(told)?;
                match self.rack.level.get(v) {
                    None => tried.past += 1,
                    Some(&at) if at == level => tried.left += 1,
                    Some(_) => tried.second += 1,
                }
            }
        }
        Ok(())
    }

    /// Moves each vertex from its roster to each other.
    fn every_move(&self, tried: &mut Tried) -> Verdict {
        for (v, &from) in self.rack.level.iter().enumerate() {
            for to in (-1..=3).filter(|&to| to != from) {
                let told = |why| format!("{v} moved from roster {from} to {to}: {why}");
                self.damaged(&[(from, v), (to, v)]).map_err(told)?;
                tried.moved += 1;
            }
        }
        Ok(())
    }

    /// All calls on the rack with these bits turned, each a level and a vertex.
    fn damaged(&self, bits: &[(i32, usize)]) -> Verdict {
        let mut rack = self.bytes.clone();
        for &(level, v) in bits {
            turn(&mut rack, level, v);
        }
        same("the other audit", reference::audit(&rack), (0, false))?;
        let (said, bytes) = guarded(&rack, |lent| self.ask(lent))?;
        same("the calls", said, UNSOUND)?;
        same_bytes("the calls", &bytes, &rack)
    }

    fn ask(&self, lent: &mut [u8]) -> Said {
        let audit = pairing::audit(lent);
        let level = pairing::level(lent, self.v);
        let mate = pairing::mate(lent, self.v);
        let linked = pairing::linked(lent, self.v, (self.v + 1) % self.rack.n as u32);
        let rosters = LEVELS.map(|level| pairing::roster(lent, level));
        let Asked { code, a, b, words } = &self.change;
        let change = pairing::change(lent, *code, *a, *b, words);
        Said {
            audit: (audit.number.0, audit.yes),
            level: (level.number.0, level.level),
            mate: (mate.number.0, mate.mate),
            linked: (linked.number.0, linked.linked),
            rosters: rosters.map(|roster| (roster.number.0, roster.count)),
            change: (change.number.0, change.draws, change.falls, change.pairs),
        }
    }
}

fn accepted(rack: &Rack, asked: &Asked) -> bool {
    let mut after = rack.clone();
    let Asked { code, a, b, words } = asked;
    change_rack(&mut after, *code, *a, *b, words).0.number == 0
}
