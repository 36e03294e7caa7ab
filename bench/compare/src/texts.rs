//! The trace texts that are run: each as long as a text may be, but for one
//! that has no change.

use crate::cases::Series;
use crate::side::Change;

/// The most words of a line.
const MOST_WORDS: usize = 128;

/// A text and how many changes it has; the one that has none counts for one.
pub struct Text {
    bytes: String,
    pub changes: usize,
}

/// The texts that are measured, by their kind and the number of boards.
pub const TEXTS: [(&str, usize); 7] = [
    ("run", 16),
    ("run", 64),
    ("run", 128),
    ("run", 256),
    ("refused", 64),
    ("words", 256),
    ("line", 4),
];

impl Text {
    /// The text of a kind: "run" has accepted changes with words of one digit, as
    /// many as they may have new pairs; "refused" has four refused changes after each
    /// accepted one; "words" has accepted changes with 128 words of ten digits;
    /// "pairs" pairs and parts, with words as "run" has them; "line" has its first
    /// line alone.
    pub fn of(kind: &str, n: usize) -> Option<Text> {
        let mut text = Text {
            bytes: format!("(rack (boards {n}))\n"),
            changes: 0,
        };
        let lines = match kind {
            "run" => accepted,
            "refused" => mostly_refused,
            "words" => with_long_words,
            "pairs" => {
                while text.add(vec![pairing(n, text.changes)]) {}
                return Some(text);
            }
            "line" => {
                text.changes = 1;
                return Some(text);
            }
            _ => return None,
        };
        // More changes than there is room for would only take time to make.
        let length = tuned::TEXT_LIMIT / (20 + 2 * (n / 2));
        let series = Series::of_length(n, length);
        let mut changes = series.changes.iter();
        while changes
            .next()
            .is_some_and(|change| text.add(lines(&series, change)))
        {}
        Some(text)
    }

    pub fn bytes(&self) -> &[u8] {
        self.bytes.as_bytes()
    }

    /// Adds lines; no if there was no room for one of them.
    fn add(&mut self, lines: Vec<String>) -> bool {
        for line in lines {
            if self.bytes.len() + line.len() > tuned::TEXT_LIMIT {
                return false;
            }
            self.bytes += &line;
            self.changes += 1;
        }
        true
    }
}

fn line(code: u32, a: u32, b: u32, words: impl Iterator<Item = u32>) -> String {
    let name = if code == 1 { "add" } else { "drop" };
    let words: String = words.map(|word| format!(" {word}")).collect();
    format!("({name} ({a} {b}) (draws{words}))\n")
}

/// The words of a change, one digit each.
fn short<'a>(series: &'a Series, change: &Change) -> impl Iterator<Item = u32> + Clone + 'a {
    series.words(change).iter().map(|word| word % 10)
}

/// The change at a place of "pairs": the vertices 2j and 2j + 1 are joined for each j,
/// and then again and again each such pair is dropped and put back.
fn pairing(n: usize, place: usize) -> String {
    let pairs = n / 2;
    let (code, pair) = match place.checked_sub(pairs) {
        None => (1, place),
        Some(later) => (2 - later as u32 % 2, later / 2 % pairs),
    };
    let a = 2 * pair as u32;
    line(code, a, a + 1, std::iter::repeat_n(7, pairs))
}

fn accepted(series: &Series, change: &Change) -> Vec<String> {
    let &Change { code, a, b, .. } = change;
    vec![line(code, a, b, short(series, change))]
}

/// The change, then 10 or 11 as it is made again, 9, 8, and 10 or 11 without words.
fn mostly_refused(series: &Series, change: &Change) -> Vec<String> {
    let &Change { code, a, b, .. } = change;
    let words = short(series, change);
    vec![
        line(code, a, b, words.clone()),
        line(code, b, a, words.clone()),
        line(code, a, a, words.clone()),
        line(code, a, series.n as u32, words),
        line(code, a, b, std::iter::empty()),
    ]
}

fn with_long_words(series: &Series, change: &Change) -> Vec<String> {
    let &Change { code, a, b, .. } = change;
    let words = series.more_words(change, MOST_WORDS).iter();
    let long = |word: &u32| 1_000_000_000 + word % 3_000_000_000;
    vec![line(code, a, b, words.map(long))]
}
