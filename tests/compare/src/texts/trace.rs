//! A trace that grows line by line, and the changes it brings about.

use crate::asked::Asked;
use reference::calls::change_rack;
use reference::checks::random::Random;
use reference::{Answer, Rack, Settings, TEXT_LIMIT};

/// The most words of a line.
pub const MOST_WORDS: usize = 128;

/// How the words of a trace are written.
#[derive(Clone, Copy, Debug, PartialEq, Eq)]
pub enum Style {
    /// One digit each.
    Short,
    /// The first words, those most likely drawn, of any length, the others of
    /// one digit.
    FirstLong,
    /// Any length.
    Any,
    /// Ten digits each.
    Long,
    /// Mostly among the highest, which are those passed over.
    High,
}

pub const STYLES: [Style; 5] = [
    Style::Short,
    Style::FirstLong,
    Style::Any,
    Style::Long,
    Style::High,
];

/// A word with at most, or with Style::Long exactly, so many digits as its
/// style says.
pub fn word(random: &mut Random, style: Style, place: usize) -> u32 {
    let any = |random: &mut Random| {
        let bits = random.below(33);
        (random.bits() % (1 << bits)) as u32
    };
    match style {
        Style::High if random.percent(70) => random.high_word(),
        Style::Long if random.percent(5) => u32::MAX,
        Style::Long => random.between(1_000_000_000, u32::MAX as usize) as u32,
        Style::Any => any(random),
        Style::FirstLong if place < 3 => any(random),
        _ => random.below(10) as u32,
    }
}

pub fn words(random: &mut Random, style: Style, number: usize) -> Vec<u32> {
    (0..number)
        .map(|place| word(random, style, place))
        .collect()
}

pub fn rack_line(n: u32) -> String {
    format!("(rack (boards {n}))\n")
}

/// Line 1 in its long form.
pub fn long_line(n: u32, growth: u32, top: u32) -> String {
    format!("(rack (boards {n}) (growth {growth}) (top {top}))\n")
}

pub fn change_line(code: u32, a: u32, b: u32, words: &[u32]) -> String {
    let name = if code == 1 { "add" } else { "drop" };
    let words: String = words.iter().map(|word| format!(" {word}")).collect();
    format!("({name} ({a} {b}) (draws{words}))\n")
}

/// A trace that fits, with the rack that it has led to.
pub struct Trace {
    pub rack: Rack,
    pub text: String,
    /// The highest level that a board came to.
    pub top: i32,
    limit: usize,
}

impl Trace {
    /// A trace of at most so many bytes, with the short line.
    pub fn start(n: usize, limit: usize) -> Trace {
        Trace {
            rack: Rack::empty(n),
            text: rack_line(n as u32),
            top: -1,
            limit: limit.min(TEXT_LIMIT),
        }
    }

    /// The same with the long line, which also names 4 and 3.
    pub fn start_with(settings: Settings, n: usize, limit: usize) -> Trace {
        let Settings { growth, top } = settings;
        Trace {
            rack: Rack::empty_with(settings, n),
            text: long_line(n as u32, growth as u32, top as u32),
            ..Trace::start(n, limit)
        }
    }

    /// The same with either line.
    pub fn start_any(random: &mut Random, n: usize, limit: usize) -> Trace {
        match random.percent(40) {
            true => Trace::start(n, limit),
            false => Trace::start_with(random.settings(), n, limit),
        }
    }

    /// Makes a change and puts its line down, if there is room for it.
    pub fn change(&mut self, code: u32, a: usize, b: usize, words: &[u32]) -> Option<Answer> {
        let (a, b) = (a as u32, b as u32);
        let line = change_line(code, a, b, words);
        if self.text.len() + line.len() > self.limit {
            return None;
        }
        self.text += &line;
        let (answer, _) = change_rack(&mut self.rack, code, a, b, words);
        let top = self.rack.level.iter().max();
        self.top = self.top.max(*top.expect("a board"));
        Some(answer)
    }

    /// A random change, mostly accepted; none if there is no room for it.
    pub fn any(&mut self, random: &mut Random, style: Style, adds: usize) -> Option<Answer> {
        let Asked { code, a, b, words } = Asked::any(random, &self.rack, adds);
        let code = if code == 2 { 2 } else { 1 };
        let number = match random.below(60) {
            0 => random.below(MOST_WORDS + 1),
            // Most changes need no more.
            1..=15 => random.below(4),
            _ => words.len(),
        };
        let words = self::words(random, style, number.min(MOST_WORDS));
        self.change(code, a as usize, b as usize, &words)
    }
}
