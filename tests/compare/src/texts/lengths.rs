//! A trace of every length that a text can have, and texts that are too long.

use super::trace::{change_line, rack_line, words, Style, MOST_WORDS};
use super::{Case, Family};
use reference::checks::random::Random;
use reference::TEXT_LIMIT;

/// The shortest text, the shortest change line, the most bytes of a word with
/// its space, and the most bytes of a last line.
const SHORTEST: usize = 18;
const LINE: usize = 20;
const WORD: usize = 11;
const LAST: usize = 500;

pub fn families() -> Vec<Family> {
    let lengths = (TEXT_LIMIT - SHORTEST + 1) as u64;
    vec![
        Family::new("a trace of every length", lengths, &[0, 4], |k| {
            Case::of(exact(k, SHORTEST + k as usize))
        }),
        Family::new("full traces", 300, &[0], |k| Case::of(exact(k, TEXT_LIMIT))),
        Family::new("texts over 16,384 bytes", 300, &[2], |k| {
            Case::of(exact(k, TEXT_LIMIT + 1 + k as usize))
        }),
    ]
}

/// A trace of exactly so many bytes. The few lengths that no trace has, such as
/// 19, get a text whose last line is cut off.
pub fn exact(seed: u64, length: usize) -> Vec<u8> {
    let mut random = Random::new(0x2300_0000 + seed);
    let n = random.between(1, 9);
    let mut text = rack_line(n as u32);
    while length - text.len() > LAST {
        let left = length - text.len();
        text += &line(&mut random, n, left);
    }
    let left = length - text.len();
    text += &last_line(&mut random, n, left);
    text.truncate(length);
    text.into_bytes()
}

/// Two ends with a digit each, the second one no board at times.
fn ends(random: &mut Random, n: usize) -> (u32, u32) {
    (random.below(n) as u32, random.below(n + 1).min(9) as u32)
}

/// A line with any number of words that leaves room for a last line.
fn line(random: &mut Random, n: usize, left: usize) -> String {
    let code = random.pick(&[1, 1, 2]);
    let (a, b) = ends(random, n);
    let room = (left - 3 * LINE) / WORD;
    let number = random.between(0, MOST_WORDS.min(room));
    let style = random.pick(&[Style::Any, Style::Long, Style::Long]);
    change_line(code, a, b, &words(random, style, number))
}

/// A line of so many bytes; none for no bytes, and the shortest if they are too
/// few for any.
fn last_line(random: &mut Random, n: usize, length: usize) -> String {
    if length == 0 {
        return String::new();
    }
    let (a, b) = ends(random, n);
    let mut code = random.pick(&[1, 1, 2]);
    // One byte can't be filled by a word, but "drop" has one more than "add".
    if length == LINE + 1 {
        code = 2;
    } else if length < LINE + 3 {
        code = 1;
    }
    let mut left = (length + 1).saturating_sub(LINE + code as usize);
    let mut words = Vec::new();
    while left > 0 {
        let width = match left {
            2..=WORD => left,
            _ => random.between(2, WORD).min(left - 2),
        };
        words.push(with_digits(random, width.max(2) - 1));
        left = left.saturating_sub(width);
    }
    change_line(code, a, b, &words)
}

/// A word of exactly so many digits.
fn with_digits(random: &mut Random, digits: usize) -> u32 {
    let low = 10_u64.pow(digits as u32 - 1);
    let high = (10 * low - 1).min(u64::from(u32::MAX));
    match digits {
        1 => random.below(10) as u32,
        _ => random.between(low as usize, high as usize) as u32,
    }
}
