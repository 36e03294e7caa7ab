//! What the runs came to: the numbers, the lines of the records, the levels
//! reached, and the words of the texts.

use crate::first_tally::FirstLines;
use crate::rosters::Rosters;
use crate::runs::Ran;
use crate::tally::Seen;
use crate::texts::Case;
use crate::Verdict;
use reference::checks::texts::first_bad_line;
use reference::grammar::{self, Step};
use reference::{RACK_BYTES, RECORD_SPACE, TEXT_LIMIT};
use std::str::from_utf8;

pub struct Tally {
    numbers: Seen<u32>,
    /// Texts of no bytes that were run, and the first lines of others.
    blank: u64,
    first_lines: FirstLines,
    /// Runs that meet two numbers at once, the lower first.
    at_once: Seen<(u32, u32)>,
    /// Change lines of records: accepted, and refused by their number.
    done: u64,
    refused: Seen<u32>,
    /// Pairs at the end by their level, and runs by the highest level that a
    /// board came to.
    pairs: Seen<u32>,
    tops: Seen<i32>,
    /// Means of end lines by the digits of their two figures, and the largest
    /// of the first.
    means: Seen<(u32, u32)>,
    crowded: u32,
    /// Lines of texts by the number of their words, and words by their digits.
    words: Seen<usize>,
    digits: Seen<u32>,
    /// Accepted changes by their draws, and lines without words by their number.
    draws: Seen<u32>,
    without: Seen<u32>,
    /// Accepted changes with more draws than n div 2, which have passed words over,
    /// and those that drew with fewer words than that.
    passing: u64,
    few: u64,
    /// The most draws, falls and pairs of a change.
    most: [u32; 3],
    longest: usize,
    /// The rosters asked for after runs with 0. If no rack was set, they're those of
    /// bytes without meaning.
    rosters: Rosters,
}

impl Default for Tally {
    fn default() -> Tally {
        let two = |lower| {
            (lower + 1..6)
                .chain([13])
                .map(move |higher| (lower, higher))
        };
        Tally {
            numbers: Seen::of("number", (0..6).chain([13])),
            blank: 0,
            first_lines: FirstLines::new(),
            at_once: Seen::of("at once", (1..6).flat_map(two)),
            done: 0,
            refused: Seen::of("number", 8..=12),
            pairs: Seen::of("level", 0..=3),
            tops: Seen::of("highest level", 0..=3),
            means: Seen::of("digits", [(1, 1), (1, 2), (1, 3), (2, 1), (2, 2)]),
            crowded: 0,
            words: Seen::of("lines by their words", 0..=128),
            digits: Seen::of("words by their digits", 1..=10),
            draws: Seen::of("draws", 0..=128),
            without: Seen::of("number", [0, 8, 9, 10, 11, 12]),
            passing: 0,
            few: 0,
            most: [0; 3],
            longest: 0,
            rosters: Rosters::of(&[0, 6], 16),
        }
    }
}

impl Tally {
    pub fn note(&mut self, case: &Case, ran: &Ran) -> Verdict {
        self.numbers.note(ran.outcome.number);
        if ran.outcome.number != 0 {
            self.note_numbers(case);
            return Ok(());
        }
        self.rosters.ask(&ran.rack)?;
        self.longest = self.longest.max(ran.outcome.length);
        // Of most texts it isn't known.
        if case.top >= 0 {
            self.tops.note(case.top);
        }
        let record = from_utf8(&ran.record).expect("digits and letters");
        for line in record.lines() {
            self.note_line(line);
        }
        self.note_text(case, record);
        Ok(())
    }

    fn note_numbers(&mut self, case: &Case) {
        let met = met(case);
        for (place, &lower) in met.iter().enumerate() {
            for &higher in &met[place + 1..] {
                self.at_once.note((lower, higher));
            }
        }
    }

    /// A line of a record.
    fn note_line(&mut self, line: &str) {
        let figures = figures(line);
        if line.starts_with("(done") {
            self.done += 1;
            for (most, figure) in self.most.iter_mut().zip(figures) {
                *most = figure.max(*most);
            }
        } else if line.starts_with("(refused") {
            self.refused.note(figures[0]);
        } else if line.starts_with("(pair") {
            self.pairs.note(figures[2]);
        } else if let [_, whole, rest] = figures[..] {
            self.means.note((digits(whole), digits(rest)));
            self.crowded = self.crowded.max(whole);
        }
    }

    fn note_text(&mut self, case: &Case, record: &str) {
        if case.text.is_empty() {
            self.blank += 1;
            return;
        }
        let trace = grammar::read(&case.text).expect("a text that was run");
        let lines = record.lines().skip(1);
        for (step, line) in trace.steps.iter().zip(lines) {
            self.note_words(trace.first.boards / 2, step, line);
        }
        let pairs = record.lines().filter(|line| line.starts_with("(pair"));
        let levels = pairs.map(|line| figures(line)[2] as i32);
        self.first_lines.note(&trace.first, case.top, levels);
    }

    /// A change line of a text with its line of the record, of a rack with so many
    /// boards in half.
    fn note_words(&mut self, half: u32, step: &Step, line: &str) {
        self.words.note(step.words.len());
        for word in &step.words {
            self.digits.note(digits(*word));
        }
        let first = figures(line)[0];
        let done = line.starts_with("(done");
        if step.words.is_empty() {
            self.without.note(if done { 0 } else { first });
        }
        if done {
            self.draws.note(first);
            self.passing += u64::from(first > half);
            self.few += u64::from(first > 0 && step.words.len() < half as usize);
        }
    }

    pub fn print(&self) {
        let [draws, falls, pairs] = self.most;
        println!("{} runs in all, by {}", self.numbers.sum(), self.numbers);
        println!("{} of them of a text of no bytes, with 0", self.blank);
        self.first_lines.print();
        println!("two numbers {}", self.at_once);
        println!("{} changes done; refused by {}", self.done, self.refused);
        println!("runs by {}; pairs at the end by {}", self.tops, self.pairs);
        println!(
            "most draws of a change {draws}, falls {falls}, pairs {pairs}; longest record {} bytes",
            self.longest
        );
        println!(
            "most links a board {}; means by {}",
            self.crowded, self.means
        );
        println!("{}", self.digits);
        println!(
            "{} changes with more draws than n div 2, {} that drew with fewer words; without any by {}",
            self.passing, self.few, self.without
        );
    }

    /// An error if something that can come never did.
    pub fn all_came(&self) -> Verdict {
        self.numbers.all_came()?;
        self.at_once.all_came()?;
        self.first_lines.all_came()?;
        let of_refused = |why| format!("refused changes: {why}");
        self.refused.all_came().map_err(of_refused)?;
        let of_pairs = |why| format!("pairs at the end: {why}");
        self.pairs.all_came().map_err(of_pairs)?;
        self.tops.all_came()?;
        let of_means = |why| format!("means: {why}");
        self.means.all_came().map_err(of_means)?;
        self.words.all_came()?;
        self.digits.all_came()?;
        self.draws.all_came()?;
        let of_none = |why| format!("lines without words: {why}");
        self.without.all_came().map_err(of_none)?;
        self.rosters.all_came()?;
        if self.blank == 0 {
            return Err("never met: a text of no bytes that was run".into());
        }
        if self.few == 0 {
            return Err("never met: a draw with fewer words than n div 2".into());
        }
        match self.most.iter().all(|&most| most >= 10) {
            true => Ok(()),
            false => Err("never met: falls and pairs of two digits".into()),
        }
    }
}

/// The figures of a line of a record.
fn figures(line: &str) -> Vec<u32> {
    let figures = line.split(|letter: char| !letter.is_ascii_digit());
    figures.filter_map(|digits| digits.parse().ok()).collect()
}

/// How many digits a figure has.
fn digits(figure: u32) -> u32 {
    1 + figure.checked_ilog10().unwrap_or(0)
}

/// The numbers that a run meets, each looked at by itself.
fn met(case: &Case) -> Vec<u32> {
    let first = first_line(&case.text);
    let met = [
        case.rack != RACK_BYTES,
        case.text.len() > TEXT_LIMIT,
        case.space < RECORD_SPACE,
        first_bad_line(&case.text).is_some(),
        first.is_some_and(|(n, ..)| n == 0 || n > 256),
        first.is_some_and(|(_, growth, top)| !(2..=8).contains(&growth) || top > 3),
    ];
    let numbers = (1..6).chain([13]).zip(met);
    numbers.filter(|(_, met)| *met).map(|(k, _)| k).collect()
}

/// The board number, the growth and the top level that a text's first line tells of.
fn first_line(text: &[u8]) -> Option<(u64, u64, u64)> {
    let line = text.split(|&byte| byte == b'\n').next()?;
    let line = from_utf8(line).ok()?;
    let numbers = line.strip_prefix("(rack (boards ")?.strip_suffix("))")?;
    let number = |digits: &str| digits.parse().ok();
    let Some((boards, settings)) = numbers.split_once(") (growth ") else {
        return Some((number(numbers)?, 4, 3));
    };
    let (growth, top) = settings.split_once(") (top ")?;
    Some((number(boards)?, number(growth)?, number(top)?))
}
