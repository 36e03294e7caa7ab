//! Edits of a text, each at a place chosen at random.

use super::trace::{change_line, words, Style};
use reference::checks::random::Random;

/// A place whose byte is among these, or else any.
fn place(random: &mut Random, text: &[u8], among: impl Fn(&u8) -> bool) -> usize {
    let all: Vec<usize> = (0..text.len()).filter(|&at| among(&text[at])).collect();
    match all.is_empty() {
        true => random.below(text.len()),
        false => random.pick(&all),
    }
}

pub fn doubled(random: &mut Random, text: &mut Vec<u8>, among: &[u8]) {
    let at = place(random, text, |byte| among.contains(byte));
    text.insert(at, text[at]);
}

pub fn missing(random: &mut Random, text: &mut Vec<u8>, among: &[u8]) {
    let at = place(random, text, |byte| among.contains(byte));
    text.remove(at);
}

pub fn change_one(
    random: &mut Random,
    text: &mut [u8],
    among: impl Fn(&u8) -> bool,
    to: fn(&mut Random, u8) -> u8,
) {
    let at = place(random, text, among);
    text[at] = to(random, text[at]);
}

pub fn turned_bracket(random: &mut Random, text: &mut [u8]) {
    let other = |_: &mut Random, byte: u8| if byte == b'(' { b')' } else { b'(' };
    change_one(random, text, |byte| b"()".contains(byte), other);
}

pub fn put_anywhere(random: &mut Random, text: &mut Vec<u8>, piece: &[u8]) {
    let at = random.below(text.len() + 1);
    text.splice(at..at, piece.iter().copied());
}

/// The first digit of a number and the place after its last.
fn number(random: &mut Random, text: &[u8]) -> (usize, usize) {
    let digit = |at: usize| text.get(at).is_some_and(u8::is_ascii_digit);
    let starts: Vec<usize> = (0..text.len())
        .filter(|&at| digit(at) && (at == 0 || !digit(at - 1)))
        .collect();
    if starts.is_empty() {
        return (0, 0);
    }
    let start = random.pick(&starts);
    let length = (start..).take_while(|&at| digit(at)).count();
    (start, start + length)
}

pub fn before_number(random: &mut Random, text: &mut Vec<u8>, piece: &[u8]) {
    let (start, _) = number(random, text);
    text.splice(start..start, piece.iter().copied());
}

pub fn in_place_of_number(random: &mut Random, text: &mut Vec<u8>, piece: &[u8]) {
    let (start, end) = number(random, text);
    text.splice(start..end, piece.iter().copied());
}

pub fn long_digits(random: &mut Random, text: &mut Vec<u8>) {
    let length = random.pick(&[11, 12, 15, 19, 20, 21, 39, 40, 100, 5_000]);
    let mut digits = vec![b'0'; length];
    digits[0] = b'1' + random.below(9) as u8;
    if random.percent(50) {
        digits[1..].fill_with(|| b'0' + random.below(10) as u8);
    }
    in_place_of_number(random, text, &digits);
}

/// Where each line begins, and where the text ends.
fn starts(text: &[u8]) -> Vec<usize> {
    let ends = (1..=text.len()).filter(|&at| text[at - 1] == b'\n');
    std::iter::once(0).chain(ends).collect()
}

/// A line put before any line but the first, or at the end.
pub fn put_line(random: &mut Random, text: &mut Vec<u8>, line: &[u8]) {
    let starts = starts(text);
    let at = match starts.len() {
        1 => text.len(),
        _ => random.pick(&starts[1..]),
    };
    text.splice(at..at, line.iter().copied());
}

pub fn with_words(random: &mut Random, text: &mut Vec<u8>, number: usize) {
    let style = random.pick(&[Style::Short, Style::Any]);
    let words = words(random, style, number);
    let code = random.pick(&[1, 2]);
    put_line(random, text, change_line(code, 0, 1, &words).as_bytes());
}

const WORDS: [&str; 7] = ["rack", "boards", "growth", "top", "add", "drop", "draws"];
const OTHERS: [&str; 21] = [
    "rack", "boards", "growth", "top", "add", "drop", "draws", "adds", "ad", "dro", "dropp",
    "draw", "board", "grow", "growths", "tops", "done", "end", "pair", "adrop", "",
];

pub fn wrong_word(random: &mut Random, text: &mut Vec<u8>) {
    let word = random.pick(&WORDS).as_bytes();
    let found: Vec<usize> = (0..text.len())
        .filter(|&at| text[at..].starts_with(word))
        .collect();
    if found.is_empty() {
        return after_end(random, text);
    }
    let at = random.pick(&found);
    let other = random.pick(&OTHERS).bytes();
    text.splice(at..at + word.len(), other);
}

/// The end of one line, of all, or of the last.
pub fn line_ends(random: &mut Random, text: &mut Vec<u8>, end: &[u8]) {
    let feeds: Vec<usize> = (0..text.len()).filter(|&at| text[at] == b'\n').collect();
    let changed = match random.below(3) {
        _ if feeds.is_empty() => vec![],
        0 => feeds,
        1 => vec![feeds[feeds.len() - 1]],
        _ => vec![random.pick(&feeds)],
    };
    for at in changed.into_iter().rev() {
        text.splice(at..at + 1, end.iter().copied());
    }
}

pub fn after_end(random: &mut Random, text: &mut Vec<u8>) {
    let more: [&[u8]; 9] = [
        b"x",
        b" ",
        b"\0",
        b"\n",
        b")",
        b"(end (pairs 0))\n",
        b"(add (0 1) (draws 0 0))",
        b"(add (0 1) (draws 0 0",
        b"\x1a",
    ];
    text.extend(random.pick(&more));
}

/// A line taken out and put in elsewhere: it fits only among the changes.
pub fn moved_line(random: &mut Random, text: &mut Vec<u8>) {
    let starts = starts(text);
    if starts.len() < 3 {
        return after_end(random, text);
    }
    let from = random.below(starts.len() - 1);
    let line: Vec<u8> = text.drain(starts[from]..starts[from + 1]).collect();
    let to = self::starts(text);
    let to = random.pick(&to);
    text.splice(to..to, line);
}
