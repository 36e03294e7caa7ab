//! The vertices at each level: the query set against the independent program, and
//! against the level of each vertex.

use crate::both::{reading, rosters, rosters_are, same};
use crate::tally::Seen;
use crate::Verdict;
use reference::image::boards;
use reference::Rack;
use std::fmt::{self, Display, Formatter};

/// Levels to ask about: all that there are, those next to them, the lowest and the
/// highest number, and such as would be a level that there is if they were cut to
/// a byte, or 32 times as many to 32 bits.
pub const LEVELS: [i32; 16] = [
    i32::MIN,
    -3,
    -2,
    -1,
    0,
    1,
    2,
    3,
    4,
    5,
    i32::MAX,
    -257,
    255,
    256,
    (1 << 27) - 1,
    i32::MIN + 2,
];

/// Those of them that are asked about before and after changes.
const NEAREST: [i32; 11] = [i32::MIN, -3, -2, -1, 0, 1, 2, 3, 4, 5, i32::MAX];

/// What the queries came to.
pub struct Rosters {
    /// The number of each answer.
    numbers: Seen<u32>,
    /// The levels at which an answer counts some vertices.
    found: Seen<i32>,
    /// The most vertices of a rack of which each is asked for its level too, and
    /// how many such racks there were.
    most: usize,
    counted: u64,
}

impl Rosters {
    /// None asked for yet; these numbers can come. Of sound racks of up to so many
    /// vertices each is to be asked for its level too.
    pub fn of(numbers: &[u32], most: usize) -> Rosters {
        Rosters {
            numbers: Seen::of("number", numbers.iter().copied()),
            found: Seen::of("level", -1..=3),
            most,
            counted: 0,
        }
    }

    /// Asks for those of all levels of the list, on any bytes.
    pub fn ask(&mut self, rack: &[u8]) -> Verdict {
        let answers = rosters(rack, LEVELS)?;
        self.note(rack, &LEVELS, &answers)
    }

    /// Asks for those of the nearest levels, on the bytes of a sound rack that is
    /// known.
    pub fn ask_on(&mut self, bytes: &[u8], rack: &Rack) -> Verdict {
        let answers = NEAREST.map(|level| (0, rack.standing(level) as u32));
        rosters_are(bytes, NEAREST, answers)?;
        self.note(bytes, &NEAREST, &answers)
    }

    /// Notes the answers, and sets them against the levels of all vertices if the
    /// rack is sound and these are few enough.
    fn note(&mut self, rack: &[u8], levels: &[i32], answers: &[(u32, u32)]) -> Verdict {
        for (level, (number, count)) in levels.iter().zip(answers) {
            self.numbers.note(*number);
            if *count > 0 {
                self.found.note(*level);
            }
        }
        if answers[0].0 == 0 && boards(rack) <= self.most {
            self.counted += 1;
            return by_levels(rack, levels, answers);
        }
        Ok(())
    }

    pub fn add(&mut self, part: &Rosters) {
        self.numbers.add(&part.numbers);
        self.found.add(&part.found);
        self.counted += part.counted;
    }

    /// Prints the whole; an error if something that can come never did.
    pub fn all_came(&self) -> Verdict {
        println!("{self}: equal");
        let told = |why| format!("rosters: {why}");
        self.numbers.all_came().map_err(told)?;
        self.found.all_came().map_err(told)?;
        match self.counted {
            0 => Err("never met: a roster counted by the levels of its boards".into()),
            _ => Ok(()),
        }
    }
}

/// Sets the answers on a sound rack against the levels that the core gives of all
/// its vertices.
fn by_levels(rack: &[u8], levels: &[i32], answers: &[(u32, u32)]) -> Verdict {
    let ask = |rack: &[u8]| -> Vec<(u32, i32)> {
        let answers = (0..boards(rack) as u32).map(|v| pairing::level(rack, v));
        answers
            .map(|answer| (answer.number.0, answer.level))
            .collect()
    };
    let found = reading("levels", rack, ask)?;
    for (level, answer) in levels.iter().zip(answers) {
        let there = found.iter().filter(|&&one| one == (0, *level)).count();
        let what = format_args!("boards at level {level} by their levels");
        same(what, (0, there as u32), *answer)?;
    }
    Ok(())
}

impl Display for Rosters {
    fn fmt(&self, f: &mut Formatter) -> fmt::Result {
        let Rosters {
            numbers,
            found,
            counted,
            ..
        } = self;
        let queries = numbers.sum();
        write!(f, "{queries} roster queries by {numbers}; boards found at ")?;
        write!(f, "{found}; {counted} racks counted board by board too")
    }
}
