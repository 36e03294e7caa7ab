//! What the changes came to: the numbers, those met at once, the levels reached,
//! and how many of them the order decides.

use crate::asked::Asked;
use crate::both::Made;
use crate::rosters::Rosters;
use crate::settings_tally::BySettings;
use crate::tally::Seen;
use crate::word_tally::Words;
use crate::Verdict;
use reference::checks::rival::order_decides;
use reference::Rack;

/// What was tried.
pub struct Tally {
    pub numbers: Seen<u32>,
    /// Changes of a sound rack that two numbers fit, the lower first. 10 and 11
    /// ask for other codes, neither has a code that 7 fits, and a link that is
    /// there has two boards. 12 fits no change that another number fits, since
    /// such a change makes no moves.
    at_once: Seen<(u32, u32)>,
    /// The accepted changes: their codes, and the highest level then reached.
    codes: Seen<u32>,
    tops: Seen<i32>,
    /// Whether those of sound racks come out otherwise with the lowest number
    /// first, so that it shows if the core takes waiting boards in that order.
    pub decided: Seen<bool>,
    draws: u64,
    pub most_new_pairs: usize,
    pub most_falls: u32,
    /// What those of sound racks did with their words.
    pub words: Words,
    /// Vertices that an accepted change put into another roster, by their levels
    /// before and after it.
    moved: Seen<(i32, i32)>,
    /// The accepted changes by settings, and the vertices that they moved.
    pub by_settings: BySettings,
    /// The rosters asked for on the racks before and after changes, on damaged ones
    /// and on buffers of a wrong length.
    pub rosters: Rosters,
}

impl Tally {
    pub fn new() -> Tally {
        let at_once = [(7, 8), (7, 9), (8, 9), (8, 11), (9, 11)];
        Tally {
            numbers: Seen::of("number", [0, 1, 6, 7, 8, 9, 10, 11, 12]),
            at_once: Seen::of("at once", at_once),
            codes: Seen::of("code", [1, 2]),
            tops: Seen::of("highest level", -1..=3),
            decided: Seen::of("decided by the order", [true, false]),
            draws: 0,
            most_new_pairs: 0,
            most_falls: 0,
            words: Words::new(),
            moved: Seen::of("levels", (-1..=3).flat_map(to_others)),
            by_settings: BySettings::new(),
            rosters: Rosters::of(&[0, 1, 6], 16),
        }
    }

    pub fn note(&mut self, made: &Made) {
        self.numbers.note(made.answer.number);
        self.draws += made.answer.draws;
        self.most_new_pairs = self.most_new_pairs.max(made.new_pairs);
        self.most_falls = self.most_falls.max(made.answer.falls);
    }

    /// A change of a sound rack, with the numbers from 7 to 11 that fit it and the
    /// rack after it.
    pub fn note_on(
        &mut self,
        before: &Rack,
        asked: &Asked,
        fit: &[u32],
        made: &Made,
        after: &Rack,
    ) {
        self.note(made);
        self.words.note(before, asked, made);
        let answer = &made.answer;
        for (place, &lower) in fit.iter().enumerate() {
            for &higher in &fit[place + 1..] {
                self.at_once.note((lower, higher));
            }
        }
        if answer.number == 0 {
            let Asked { code, a, b, words } = asked;
            self.codes.note(*code);
            self.tops
                .note(after.level.iter().copied().max().unwrap_or(-1));
            let decided = order_decides(before, (*code, *a, *b), words, answer, after);
            self.decided.note(decided);
            let levels = before.level.iter().zip(&after.level);
            for (&from, &to) in levels.filter(|(from, to)| from != to) {
                self.moved.note((from, to));
            }
            self.by_settings.note(before, after);
        }
    }

    /// Prints a part and adds it.
    pub fn add(&mut self, what: &str, part: &Tally) {
        part.print(what);
        self.numbers.add(&part.numbers);
        self.at_once.add(&part.at_once);
        self.codes.add(&part.codes);
        self.tops.add(&part.tops);
        self.decided.add(&part.decided);
        self.draws += part.draws;
        self.most_new_pairs = self.most_new_pairs.max(part.most_new_pairs);
        self.most_falls = self.most_falls.max(part.most_falls);
        self.words.add(&part.words);
        self.moved.add(&part.moved);
        self.by_settings.add(&part.by_settings);
        self.rosters.add(&part.rosters);
    }

    fn print(&self, what: &str) {
        println!(
            "{} changes {what}, by {}; {} draws, most new pairs {} and falls {}{}{}: equal",
            self.numbers.sum(),
            self.numbers,
            self.draws,
            self.most_new_pairs,
            self.most_falls,
            self.by_order(),
            self.words.passing_told()
        );
    }

    /// How many changes the order decides, where that was looked at.
    fn by_order(&self) -> String {
        match self.decided.sum() {
            0 => String::new(),
            all => format!(
                "; {} of {all} decided by the order",
                self.decided.times(true)
            ),
        }
    }

    /// Prints the whole; an error if something that can come never did.
    pub fn all_came(&self) -> Verdict {
        self.print("in all");
        println!("two numbers {}", self.at_once);
        println!("accepted by {}; {}", self.codes, self.tops);
        self.words.print();
        println!(
            "{} of {} accepted changes come out otherwise with the lowest number first",
            self.decided.times(true),
            self.decided.sum()
        );
        println!(
            "{} boards put into another roster, by {}",
            self.moved.sum(),
            self.moved
        );
        self.by_settings.print();
        self.numbers.all_came()?;
        self.at_once.all_came()?;
        self.codes.all_came()?;
        self.decided.all_came()?;
        self.tops.all_came()?;
        self.moved.all_came()?;
        self.by_settings.all_came()?;
        self.words.all_came()?;
        self.rosters.all_came()
    }
}

/// A level with each other one.
fn to_others(from: i32) -> impl Iterator<Item = (i32, i32)> {
    let levels = (-1..=3).filter(move |&to| to != from);
    levels.map(move |to| (from, to))
}

/// The numbers from 7 to 11 that fit a change of a sound rack, each looked at by
/// itself.
pub fn fitting(rack: &Rack, asked: &Asked) -> Vec<u32> {
    let Asked { code, a, b, .. } = asked;
    let (a, b) = (*a as usize, *b as usize);
    let outside = a >= rack.n || b >= rack.n;
    let there = !outside && rack.linked(a, b);
    let fit = [
        ![1, 2].contains(code),
        outside,
        a == b,
        *code == 1 && there,
        *code == 2 && !there,
    ];
    let numbers = (7..).zip(fit);
    numbers.filter(|(_, fits)| *fits).map(|(k, _)| k).collect()
}
