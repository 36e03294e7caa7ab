//! Lines on the edge of the grammar, by hand, at every place of a text.

use super::trace::{change_line, rack_line};
use super::{Case, Family};
use reference::TEXT_LIMIT;

/// Lines that fit and lines that don't, by a hair.
const LINES: [&str; 54] = [
    "(add (0 1) (draws 0 0))",
    "(drop (0 1) (draws 4294967295 4294967295))",
    "(add (0 1) (draws))",
    "(add (0 0) (draws))",
    "(add (4294967295 1) (draws 0 0))",
    "(drop (0 4294967295) (draws 0 0))",
    "(add (0 1) (draws 4294967289 1000000000))",
    "(add (0 1) (draws 99999999 999999999))",
    "(add (0 1) (draws 12345678 9999999))",
    "",
    " ",
    "(",
    ")",
    "(rack (boards 4))",
    "(rack (boards 4) )",
    "(rack (boards 04))",
    "(rack (boards))",
    "(rack(boards 4))",
    "(add (0 1) (draws 4294967296 0))",
    "(add (0 1) (draws 4300000000 0))",
    "(add (0 1) (draws 9999999999 0))",
    "(add (0 1) (draws 42949672950 0))",
    "(add (4294967296 1) (draws 0 0))",
    "(add (1 4294967296) (draws 0 0))",
    "(add (0 1) (draws 00000000 0))",
    "(add (0 1) (draws 01234567 0))",
    "(add (0 1) (draws 0123456789 0))",
    "(add (0 1) (draws 00 0))",
    "(add (0 01) (draws 0 0))",
    "(add (00 1) (draws 0 0))",
    "(add (0 1) (draws 1234567x 0))",
    "(add (0 1) (draws 12345678x 0))",
    "(add (0 1) (draws 12345678:1 0))",
    "(add (0 1) (draws /1 0))",
    "(add (0 1) (draws  0))",
    "(add (0 1) (draws 0 ))",
    "(add (0 1) (draws ))",
    "(add (0 1) (draws0 0))",
    "(add (0 1) (draws 0 0)",
    "(add (0 1) (draws 0 0)))",
    "(add (0 1) (draws 0 0))(",
    "(add (0 1) (draws 0 0)) ",
    " (add (0 1) (draws 0 0))",
    "(add(0 1) (draws 0 0))",
    "(add (0 1)(draws 0 0))",
    "(add (0 1 2) (draws 0 0))",
    "(add (0) (draws 0 0))",
    "(add (0  1) (draws 0 0))",
    "(add ( 0 1) (draws 0 0))",
    "(add (0 1 ) (draws 0 0))",
    "(add (0 1))",
    "(addd (0 1) (draws 0 0))",
    "(Add (0 1) (draws 0 0))",
    "(add (0 1) (draws \u{ff}\u{fe}1 0))",
];

pub fn families() -> Vec<Family> {
    let texts = texts();
    let counts = word_counts();
    let last_lines = last_lines();
    vec![
        table("lines on the edge of the grammar", &[0, 4], texts),
        table("lines of 0 to 140 words", &[0, 4], counts),
        table("a first bad line of every number", &[4], last_lines),
    ]
}

pub fn table(name: &str, meets: &'static [u32], texts: Vec<Vec<u8>>) -> Family {
    let number = texts.len() as u64;
    Family::new(name, number, meets, move |at| {
        Case::of(&texts[at as usize][..])
    })
}

/// Each line as the first, the last and the last but one, with and without its
/// line feed, and cut short anywhere.
fn texts() -> Vec<Vec<u8>> {
    let mut texts = Vec::new();
    for line in LINES {
        let line = line.as_bytes();
        texts.push([line, b"\n"].concat());
        for before in [&b""[..], b"(drop (9 9) (draws 12))\n"] {
            let text = [rack_line(4).as_bytes(), before, line].concat();
            texts.push([&text, &b"\n"[..]].concat());
            texts.push([&text, &b"\n\n"[..]].concat());
            texts.push([&text, &b"\n(add (1 2) (draws 0 0))\n"[..]].concat());
            let first = text.len() - line.len();
            texts.extend((first..=text.len()).map(|end| text[..end].to_vec()));
        }
    }
    texts
}

/// A line of every number of words, the last of them of every number of digits.
fn word_counts() -> Vec<Vec<u8>> {
    let mut texts = Vec::new();
    for number in 0..=140 {
        for last in (0..10).map(|digits| 10_u32.pow(digits)) {
            let mut words = vec![3; number];
            if let Some(word) = words.last_mut() {
                *word = last;
            }
            let line = change_line(1 + last % 2, 0, 1, &words);
            texts.push((rack_line(5) + &line).into_bytes());
        }
    }
    texts
}

/// Lines that fit and one that doesn't, as far as a text can hold them.
fn last_lines() -> Vec<Vec<u8>> {
    let line = "(add (0 0) (draws))\n";
    let first = rack_line(1);
    let most = (TEXT_LIMIT - first.len()) / line.len();
    let text = |lines: usize| [&first, &line.repeat(lines), "("].concat();
    (0..=most).map(|lines| text(lines).into_bytes()).collect()
}
