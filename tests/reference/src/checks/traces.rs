//! Random trace texts, whole and damaged, with the record told from the calls
//! one by one.

use super::random::Random;
use super::texts::first_bad_line;
use super::{came, holds, same, Tally, Verdict};
use crate::image::owns;
use crate::{change_with_pairs, level, make, make_with, mate, run, Outcome};
use crate::{RACK_BYTES, RECORD_SPACE, TEXT_LIMIT};

const SEEDS: u64 = 6_000;

/// Every byte of the rack buffer before a run.
const LENT: u8 = 7;

pub fn random_texts(tally: &mut Tally) -> Verdict {
    let mut numbers = [0; 14];
    one_text(b"", tally).map_err(|why| format!("text of no bytes: {why}"))?;
    for seed in 0..SEEDS {
        let mut random = Random::new(0x7e87_0000 + seed);
        let mut text = random_text(&mut random);
        for _ in 0..random.pick(&[0, 0, 1, 1, 1, 2, 5]) {
            damage(&mut random, &mut text);
        }
        let number = one_text(&text, tally).map_err(|why| format!("text of seed {seed}: {why}"))?;
        numbers[number as usize] += 1;
    }
    came("number", &numbers, &[0, 2, 4, 5, 13])?;
    let (read, bad) = (numbers[0], SEEDS - numbers[0]);
    Ok(format!("{read} random texts run, {bad} turned back: ok"))
}

/// The number that a run of this text comes to, if all is as it must be.
fn one_text(text: &[u8], tally: &mut Tally) -> Result<u32, String> {
    let (mut rack, mut record) = (vec![LENT; RACK_BYTES], vec![8; RECORD_SPACE + 5]);
    let outcome = run(&mut rack, text, &mut record);
    let wanted = wanted(text, tally);
    let (last, lines) = match wanted {
        Ok(both) => both,
        Err((number, line)) => {
            let turned_back = Outcome {
                number,
                line,
                length: 0,
            };
            same("outcome", outcome, turned_back)?;
            let untouched = rack.iter().all(|&byte| byte == LENT);
            holds("the rack stays", untouched)?;
            holds("the record stays", record.iter().all(|&byte| byte == 8))?;
            return Ok(number);
        }
    };
    same("outcome", (outcome.number, outcome.line), (0, 0))?;
    let (told, past) = record.split_at(outcome.length);
    same(
        "record",
        String::from_utf8_lossy(told).as_ref(),
        lines.as_str(),
    )?;
    holds(
        "bytes past the record stay",
        past.iter().all(|&byte| byte == 8),
    )?;
    holds("the rack is that of the changes", rack == last)?;
    Ok(0)
}

/// What a run must come to: the number and line that turn it back, or the
/// last rack and the record. The text fits by the other way of telling, so its
/// numbers are read by cutting at all that isn't a digit. If it has no line, the
/// rack stays as it is lent.
fn wanted(text: &[u8], tally: &mut Tally) -> Result<(Vec<u8>, String), (u32, usize)> {
    if text.len() > TEXT_LIMIT {
        return Err((2, 0));
    }
    if let Some(line) = first_bad_line(text) {
        return Err((4, line));
    }
    let text = String::from_utf8_lossy(text).into_owned();
    let mut rack = vec![LENT; RACK_BYTES];
    let mut lines = text.lines();
    let Some(first) = lines.next() else {
        return Ok((rack, "(end (pairs 0))\n".into()));
    };
    let named = numbers(first);
    let number = match named[..] {
        [n, growth, top] => make_with(&mut rack, n, growth, top),
        _ => make(&mut rack, named[0]),
    };
    if number != 0 {
        return Err((number, 0));
    }
    let mut record = format!("{first}\n");
    for line in lines {
        record += &told(&mut rack, line, tally);
    }
    record += &ending(&rack, named[0]);
    Ok((rack, record))
}

fn numbers(line: &str) -> Vec<u32> {
    let runs = line.split(|letter: char| !letter.is_ascii_digit());
    runs.filter_map(|run| run.parse().ok()).collect()
}

fn told(rack: &mut [u8], line: &str, tally: &mut Tally) -> String {
    let numbers = numbers(line);
    let code = if line.contains("add") { 1 } else { 2 };
    let (a, b, words) = (numbers[0], numbers[1], &numbers[2..]);
    let (answer, new_pairs) = change_with_pairs(rack, code, a, b, words);
    tally.note(&answer, new_pairs.len());
    match answer.number {
        0 => format!(
            "(done (draws {}) (falls {}) (pairs {}))\n",
            answer.draws, answer.falls, answer.pairs
        ),
        number => format!("(refused {number})\n"),
    }
}

/// The pair lines and the end line. Twice the links are all boards' neighbours
/// together.
fn ending(rack: &[u8], n: u32) -> String {
    let mut lines = String::new();
    let (mut pairs, mut neighbours) = (0, 0);
    for a in 0..n {
        neighbours += (0..n).filter(|&b| joined(rack, a, b)).count() as u32;
        let (_, b) = mate(rack, a);
        if b < n && a < b {
            let (_, at) = level(rack, a);
            lines += &format!("(pair ({a} {b}) (level {at}))\n");
            pairs += 1;
        }
    }
    let (whole, rest) = (neighbours / n, neighbours % n);
    lines + &format!("(end (pairs {pairs}) (mean {whole} {rest}))\n")
}

fn joined(rack: &[u8], a: u32, b: u32) -> bool {
    let (a, b) = (a as usize, b as usize);
    owns(rack, a, b) || owns(rack, b, a)
}

fn random_text(random: &mut Random) -> Vec<u8> {
    let n = match random.below(200) {
        0..=9 => random.pick(&[0, 257, 1 << 31, u32::MAX as usize]),
        10 | 11 => random.between(60, 256),
        12..=21 => 1,
        _ => random.between(2, 12),
    };
    let mut text = random_first_line(random, n);
    for _ in 0..random.between(0, 60) {
        let name = random.pick(&["add", "add", "add", "drop"]);
        let (a, b) = (random_board(random, n), random_board(random, n));
        let mut words = random.words_for(n.min(256));
        words.truncate(128);
        let words: String = words.iter().map(|word| format!(" {word}")).collect();
        let line = format!("({name} ({a} {b}) (draws{words}))\n");
        if text.len() + line.len() <= TEXT_LIMIT || random.percent(1) {
            text += &line;
        }
    }
    text.into_bytes()
}

/// Line 1, in either form, at times with a setting outside its range.
fn random_first_line(random: &mut Random, n: usize) -> String {
    if random.percent(40) {
        return format!("(rack (boards {n}))\n");
    }
    let odd = random.percent(8);
    let (growth, top) = match odd {
        true => (random.below(12), random.below(6)),
        false => (random.between(2, 8), random.below(4)),
    };
    format!("(rack (boards {n}) (growth {growth}) (top {top}))\n")
}

fn random_board(random: &mut Random, n: usize) -> usize {
    if random.percent(2) {
        return random.pick(&[n, n + 1, 256]).min(u32::MAX as usize);
    }
    random.below(n.max(1))
}

/// One byte put in, taken out or changed, two swapped, a piece said twice, or
/// the end cut off.
fn damage(random: &mut Random, text: &mut Vec<u8>) {
    let letters = b"()0123456789 adroprawsckbgth\n\r\t";
    let byte = if random.percent(80) {
        random.pick(letters)
    } else {
        random.bits() as u8
    };
    let at = random.below(text.len().max(1));
    match random.below(6) {
        _ if text.is_empty() => text.push(byte),
        0 => text.insert(at, byte),
        1 => drop(text.remove(at)),
        2 => text[at] = byte,
        3 => {
            let other = random.below(text.len());
            text.swap(at, other);
        }
        4 => {
            let end = (at + random.below(30)).min(text.len());
            let piece = text[at..end].to_vec();
            text.splice(at..at, piece);
        }
        _ => text.truncate(text.len() - random.below(text.len().min(40))),
    }
}
