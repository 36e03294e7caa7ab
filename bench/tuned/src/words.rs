//! The words of a line: all are tested and counted, and only those that are
//! drawn are read.

use crate::digits::{halves, length, number};

/// The words of a line that fits, read one after the other.
#[derive(Clone, Copy)]
pub struct Drawn<'a> {
    pub rest: &'a [u8],
}

impl Iterator for Drawn<'_> {
    type Item = u32;

    #[inline(always)]
    fn next(&mut self) -> Option<u32> {
        let (word, rest) = number(self.rest.strip_prefix(b" ")?)?;
        self.rest = rest;
        Some(word)
    }
}

/// Words that were passed: how many, and whether some draw could pass over one of
/// them.
#[derive(Clone, Copy)]
pub struct Passed {
    pub number: usize,
    pub high: bool,
}

/// Passes over words, each with a space before it, and counts them.
#[inline(always)]
pub fn pass(text: &[u8]) -> Option<(Passed, &[u8])> {
    let rest = after_short(text);
    let number = (text.len() - rest.len()) / 2;
    if rest.first() != Some(&b' ') {
        let high = false;
        return Some((Passed { number, high }, rest));
    }
    let (mut passed, rest) = pass_singly(rest)?;
    passed.number += number;
    Some((passed, rest))
}

/// The same word by word, for words of any length. It is kept out of the
/// function that reads the lines, so that it has the registers to itself.
#[inline(never)]
fn pass_singly(text: &[u8]) -> Option<(Passed, &[u8])> {
    let (mut number, mut high, mut rest) = (0, false, text);
    while let Some((b' ', word)) = rest.split_first() {
        rest = &word[length(word, &mut high)?..];
        number += 1;
    }
    Some((Passed { number, high }, rest))
}

/// What follows the words of one digit at the start, as far as they come in
/// eights and then four. Each is ended by the space of the next one; a digit
/// after the last belongs to it, and then that word is left to be passed alone.
#[inline(always)]
fn after_short(text: &[u8]) -> &[u8] {
    let mut rest = text;
    while let Some((sixteen, after)) = rest.split_first_chunk::<16>() {
        let [four, more] = halves(sixteen);
        if unlike_short(four) | unlike_short(more) != 0 {
            break;
        }
        rest = after;
    }
    if let Some((four, after)) = rest.split_first_chunk::<8>() {
        if unlike_short(u64::from_le_bytes(*four)) == 0 {
            rest = after;
        }
    }
    let passed = text.len() - rest.len();
    if passed > 0 && rest.first().is_some_and(u8::is_ascii_digit) {
        return &text[passed - 2..];
    }
    rest
}

/// Four words of the digit 0, and the bits that all such words share.
const FOUR_WORDS: u64 = u64::from_le_bytes(*b" 0 0 0 0");
const SHARED: u64 = 0xf0ff_f0ff_f0ff_f0ff;

/// What lifts a digit above 9 to 16 or more, and the bits by which that shows.
const OVER_NINE: u64 = 0x0600_0600_0600_0600;
const SIXTEENS: u64 = 0xf000_f000_f000_f000;

/// No bit exactly if eight bytes are four words of one digit, each after its
/// space. The sum can only run over where a shared bit is wrong already.
#[inline(always)]
fn unlike_short(bytes: u64) -> u64 {
    let digits = bytes ^ FOUR_WORDS;
    digits & SHARED | digits.wrapping_add(OVER_NINE) & SIXTEENS
}
