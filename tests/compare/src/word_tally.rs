//! What changes of sound racks did with the words lent to them.

use crate::asked::Asked;
use crate::both::Made;
use crate::lists::Lists;
use crate::tally::Seen;
use crate::Verdict;
use reference::checks::shortage::runs_out;
use reference::Rack;

/// From this number on words passed over are counted as one outcome.
const MANY: u64 = 10;

pub struct Words {
    /// Accepted changes by the words that they passed over, and the most of one.
    passed: Seen<u64>,
    most_passed: u64,
    /// Changes that ran out of words, by whether they had made a draw before.
    after_a_draw: Seen<bool>,
    /// Accepted changes with a new pair, by whether fewer words than n div 2 were
    /// lent.
    few: Seen<bool>,
    /// Changes without any word by their number: only one that 7 to 11 don't fit
    /// and that has to draw gets 12.
    without: Seen<u32>,
    /// Changes made again with lists that end near the last word needed.
    pub lists: Lists,
}

impl Words {
    pub fn new() -> Words {
        Words {
            passed: Seen::of("words passed over", 0..=MANY),
            most_passed: 0,
            after_a_draw: Seen::of("after a draw", [true, false]),
            few: Seen::of("fewer words than n div 2", [true, false]),
            without: Seen::of("number", [0, 7, 8, 9, 10, 11, 12]),
            lists: Lists::new(),
        }
    }

    /// A change of a sound rack.
    pub fn note(&mut self, before: &Rack, asked: &Asked, made: &Made) {
        let Asked { code, a, b, words } = asked;
        let Made { answer, new_pairs } = made;
        if words.is_empty() {
            self.without.note(answer.number);
        }
        if answer.number == 12 {
            let draws = runs_out(before, (*code, *a, *b), words);
            self.after_a_draw.note(draws > Some(0));
        }
        if answer.number == 0 {
            // Each new pair uses one word that chooses.
            let passed = answer.draws - *new_pairs as u64;
            self.passed.note(passed.min(MANY));
            self.most_passed = self.most_passed.max(passed);
        }
        if *new_pairs > 0 {
            self.few.note(words.len() < before.n / 2);
        }
    }

    pub fn add(&mut self, part: &Words) {
        self.passed.add(&part.passed);
        self.most_passed = self.most_passed.max(part.most_passed);
        self.after_a_draw.add(&part.after_a_draw);
        self.few.add(&part.few);
        self.without.add(&part.without);
        self.lists.add(&part.lists);
    }

    /// How many changes passed words over.
    fn passing(&self) -> u64 {
        self.passed.sum() - self.passed.times(0)
    }

    /// The same, where it was looked at.
    pub fn passing_told(&self) -> String {
        match self.passed.sum() {
            0 => String::new(),
            _ => format!("; {} passed words over", self.passing()),
        }
    }

    pub fn print(&self) {
        println!(
            "{} changes passed words over, at most {} of one; accepted by {} ({MANY} or more)",
            self.passing(),
            self.most_passed,
            self.passed
        );
        println!(
            "{} changes ran out of words, {} of them after a draw: the rack stays",
            self.after_a_draw.sum(),
            self.after_a_draw.times(true)
        );
        println!(
            "{} of {} changes that drew had fewer words than n div 2; without any word by {}",
            self.few.times(true),
            self.few.sum(),
            self.without
        );
        self.lists.print();
    }

    /// An error if something that can come never did.
    pub fn all_came(&self) -> Verdict {
        self.passed.all_came()?;
        self.after_a_draw.all_came()?;
        self.few.all_came()?;
        let told = |why| format!("without any word: {why}");
        self.without.all_came().map_err(told)?;
        self.lists.all_came()
    }
}
