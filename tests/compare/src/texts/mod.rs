//! Texts to run, family by family: traces of every size, damaged ones, and
//! bytes without meaning. A family makes its cases one by one from their place,
//! so that any of them can be made again.

mod blank;
mod crowded;
mod damages;
mod edits;
mod first_lines;
mod fixed;
mod grown;
mod lengths;
mod lines;
mod mutations;
mod numbers;
mod passed;
mod settings;
mod soup;
mod trace;

pub use fixed::stated;

use reference::{RACK_BYTES, RECORD_SPACE};

/// One run to make: the lengths of the rack buffer and of the record space, and
/// the text.
#[derive(Clone)]
pub struct Case {
    pub rack: usize,
    pub text: Vec<u8>,
    pub space: usize,
    /// The highest level that a board comes to in the run, where it is known.
    pub top: i32,
}

impl Case {
    /// A text with buffers of the right lengths.
    pub fn of(text: impl Into<Vec<u8>>) -> Case {
        Case {
            rack: RACK_BYTES,
            text: text.into(),
            space: RECORD_SPACE,
            top: -1,
        }
    }
}

/// Cases of one kind, and the numbers that must be among their answers.
pub struct Family {
    pub name: String,
    pub cases: u64,
    meets: &'static [u32],
    pub make: Box<dyn Fn(u64) -> Case>,
}

impl Family {
    fn new(
        name: &str,
        cases: u64,
        meets: &'static [u32],
        make: impl Fn(u64) -> Case + 'static,
    ) -> Family {
        Family {
            name: name.into(),
            cases,
            meets,
            make: Box::new(make),
        }
    }

    /// A number that must be among the answers and isn't, given how often each
    /// came.
    pub fn missed(&self, numbers: &[u64]) -> Option<u32> {
        let never = |number: &u32| {
            numbers
                .get(*number as usize)
                .is_none_or(|&times| times == 0)
        };
        self.meets.iter().copied().find(never)
    }
}

/// All families.
pub fn families() -> Vec<Family> {
    let mut all = lengths::families();
    all.extend(grown::families());
    all.extend(settings::families());
    all.extend(crowded::families());
    all.extend(passed::families());
    all.extend(damages::families());
    all.extend(lines::families());
    all.extend(first_lines::families());
    all.extend(mutations::families());
    all.extend(soup::families());
    all.extend(numbers::families());
    all.extend(blank::families());
    all
}
