//! The checks of this program upon itself: seeded, repeatable, bounded by
//! counts. Each check gives the line to print, or says what failed.

pub mod audits;
pub mod bench;
pub mod book;
pub mod cases;
pub mod exact;
pub mod facts;
pub mod fair;
pub mod fans;
pub mod ladders;
pub mod lifts;
pub mod long_lines;
pub mod makers;
pub mod makings;
pub mod order;
pub mod random;
pub mod refusals;
pub mod rival;
pub mod rosters;
pub mod settings;
pub mod shape;
pub mod shortage;
pub mod small;
pub mod stars;
pub mod texts;
pub mod traces;
pub mod walk;
pub mod wanderings;

use crate::{Answer, Settings};
use std::collections::BTreeMap;

/// What a check gives: the line to print, or what failed.
pub type Verdict = Result<String, String>;

/// What the changes of all checks came to.
#[derive(Clone, Debug, Default)]
pub struct Tally {
    /// Changes asked for, and how often each number came of them.
    pub changes: u64,
    pub numbers: [u64; 13],
    /// Draws of all changes, and the most new pairs and falls of one.
    pub draws: u64,
    pub most_new_pairs: usize,
    pub most_falls: u32,
    /// Changes that passed words over, and the most words passed over in one.
    pub passing: u64,
    pub most_passed: u64,
    /// Changes of walks that were made with fewer words than n div 2, and those
    /// that ran out of words after a draw.
    pub made_with_few: u64,
    pub ran_out_later: u64,
    /// Changes of walks that parted a pair at level 0 and have two new pairs.
    pub two_at_level_0: u64,
    /// New pairs standing after their change, by the settings of the rack and the level.
    pub standing: BTreeMap<(Settings, i32), u64>,
    /// Changes of walks that come out otherwise with the lowest number first.
    pub decided: u64,
}

impl Tally {
    /// A change that was asked for, and how many new pairs it has.
    pub fn note(&mut self, answer: &Answer, new_pairs: usize) {
        self.changes += 1;
        self.numbers[answer.number as usize] += 1;
        self.draws += answer.draws;
        self.most_new_pairs = self.most_new_pairs.max(new_pairs);
        self.most_falls = self.most_falls.max(answer.falls);
        // Each new pair uses one word that chooses.
        let passed = answer.draws - new_pairs as u64;
        self.passing += u64::from(passed > 0);
        self.most_passed = self.most_passed.max(passed);
    }

    /// A new pair that stands after its change.
    pub fn stands(&mut self, settings: Settings, level: i32) {
        *self.standing.entry((settings, level)).or_default() += 1;
    }

    /// How many new pairs stand at a level, at all settings together.
    pub fn standing_at(&self, level: i32) -> u64 {
        let there = self.standing.iter().filter(|((_, at), _)| *at == level);
        there.map(|(_, times)| times).sum()
    }

    /// One line about the changes tried since an earlier tally, or an error if
    /// one of these numbers never came of them.
    pub fn since(&self, earlier: &Tally, numbers: &[usize]) -> Verdict {
        let mut since = self.numbers;
        for (times, before) in since.iter_mut().zip(earlier.numbers) {
            *times -= before;
        }
        came("number", &since, numbers)?;
        let refused: u64 = since[1..].iter().sum();
        let changes = self.changes - earlier.changes;
        let draws = self.draws - earlier.draws;
        Ok(format!(
            "{changes} changes, {refused} refused, {draws} draws"
        ))
    }

    /// The same of changes of walks, with how many of them the order decides.
    pub fn walked_since(&self, earlier: &Tally, numbers: &[usize]) -> Verdict {
        let tried = self.since(earlier, numbers)?;
        let decided = self.decided - earlier.decided;
        let passing = self.passing - earlier.passing;
        Ok(format!(
            "{tried}, {decided} decided by the order, {passing} passed words over,"
        ))
    }

    /// An error unless all that walks are to meet was met: new pairs at all settings, at
    /// every level that boards can draw at, and at no other.
    fn walks_met_all(&self) -> Result<(), String> {
        let of = |settings| settings::drawn_at(settings).map(move |level| (settings, level));
        let wanted: Vec<(Settings, i32)> = Settings::all().flat_map(of).collect();
        let met: Vec<(Settings, i32)> = self.standing.keys().copied().collect();
        same("settings and levels of new pairs", met, wanted)?;
        holds("the order decides some changes", self.decided > 0)?;
        holds("some changes pass many words over", self.most_passed > 9)?;
        holds("some are made with few words", self.made_with_few > 0)?;
        holds(
            "some have two new pairs at level 0",
            self.two_at_level_0 > 0,
        )?;
        holds("some run out of words later", self.ran_out_later > 0)
    }
}

/// An error saying what was wanted and what came, if they differ.
pub fn same<T: PartialEq + std::fmt::Debug>(what: &str, came: T, wanted: T) -> Result<(), String> {
    if came == wanted {
        return Ok(());
    }
    Err(format!("{what}: wanted {wanted:?}, came {came:?}"))
}

/// An error naming the first of these that never came, given how often each did.
pub fn came(what: &str, times: &[u64], these: &[usize]) -> Result<(), String> {
    match these.iter().find(|&&one| times[one] == 0) {
        Some(one) => Err(format!("never met: {what} {one}")),
        None => Ok(()),
    }
}

/// An error saying what doesn't hold.
pub fn holds(what: &str, yes: bool) -> Result<(), String> {
    if yes {
        return Ok(());
    }
    Err(format!("does not hold: {what}"))
}

/// All checks in order.
const CHECKS: [fn(&mut Tally) -> Verdict; 29] = [
    bench::worked_example,
    bench::bench_cases,
    cases::hand_worked,
    order::first_served,
    fair::hand_worked,
    fair::refused_by_12,
    stars::every_place,
    stars::every_star,
    fans::fans,
    settings::told_by_hand,
    lifts::every_rise,
    ladders::every_ladder,
    lifts::every_hub,
    stars::every_fall,
    makings::making,
    refusals::calls_turned_back,
    refusals::changes_turned_back,
    refusals::runs_turned_back,
    rosters::told_by_hand,
    rosters::every_bit,
    audits::audits_agree,
    small::every_small_rack,
    wanderings::from_empty_racks,
    wanderings::from_empty_racks_of_all_settings,
    wanderings::from_random_racks,
    wanderings::from_large_random_racks,
    texts::damaged_lines,
    long_lines::long_lines,
    traces::random_texts,
];

/// Makes all checks, each with its line to print.
pub fn all(print: &mut dyn FnMut(&str)) -> Result<Tally, String> {
    let mut tally = Tally::default();
    for check in CHECKS {
        let line = check(&mut tally)?;
        print(&line);
    }
    tally.walks_met_all()?;
    Ok(tally)
}
