//! Every number by which a call is turned back, first fit first, with nothing
//! lent written.

use super::bench::text_of_length;
use super::book::Book;
use super::shortage::runs_out;
use super::{came, holds, same, Tally, Verdict};
use crate::{audit, change, change_with_pairs, level, linked, make, mate, roster, run};
use crate::{Answer, Outcome, Rack, RACK_BYTES, RECORD_SPACE, TEXT_LIMIT};

/// Among them the length of document 01, which was the right one before the
/// rosters.
pub const WRONG_LENGTHS: [usize; 8] = [0, 1, 9_991, 9_992, 9_993, 10_151, 10_153, 20_000];

/// Levels to ask about, most of which no board can stand at.
const LEVELS: [i32; 11] = [i32::MIN, -257, -3, -2, -1, 0, 3, 4, 5, 255, i32::MAX];

/// Bytes with no meaning, to see that they stay.
pub fn noise(length: usize) -> Vec<u8> {
    (0..length).map(|at| (at * 31 % 251) as u8).collect()
}

/// A rack of five boards with the links 0-1 (paired) and 0-2.
fn some_rack() -> Vec<u8> {
    let mut rack = vec![0; RACK_BYTES];
    make(&mut rack, 5);
    change(&mut rack, 1, 0, 1, &[0, 0]);
    change(&mut rack, 1, 0, 2, &[0, 0]);
    rack
}

/// Making, the audit and the queries.
pub fn calls_turned_back(_: &mut Tally) -> Verdict {
    for length in WRONG_LENGTHS {
        let mut buffer = noise(length);
        for n in [0, 1, 256, 257] {
            same("make", make(&mut buffer, n), 1)?;
        }
        holds("make writes nothing", buffer == noise(length))?;
        same("audit", audit(&buffer), (1, false))?;
        same("level", level(&buffer, 0), (1, 0))?;
        same("mate", mate(&buffer, 900), (1, 0))?;
        same("linked", linked(&buffer, 7, 7), (1, 0))?;
        for at in LEVELS {
            same("roster", roster(&buffer, at), (1, 0))?;
        }
    }
    let mut buffer = noise(RACK_BYTES);
    for n in [0, 257, 65_536, 65_537, u32::MAX] {
        same("make", make(&mut buffer, n), 5)?;
        holds("make writes nothing", buffer == noise(RACK_BYTES))?;
    }
    same("audit", audit(&buffer), (0, false))?;
    same("level", level(&buffer, 900), (6, 0))?;
    same("mate", mate(&buffer, 900), (6, 0))?;
    same("linked", linked(&buffer, 900, 900), (6, 0))?;
    for at in LEVELS {
        same("roster", roster(&buffer, at), (6, 0))?;
    }
    queries_on_a_sound_rack()?;
    Ok("making, audit and queries turned back by 1, 5, 6, 8, 9: ok".into())
}

fn queries_on_a_sound_rack() -> Result<(), String> {
    let rack = some_rack();
    for v in [5, 255, 256, 65_535, 65_536, 1 << 31, u32::MAX] {
        same("level", level(&rack, v), (8, 0))?;
        same("mate", mate(&rack, v), (8, 0))?;
        same("linked", linked(&rack, v, v), (8, 0))?;
        same("linked", linked(&rack, v, 0), (8, 0))?;
        same("linked", linked(&rack, 0, v), (8, 0))?;
    }
    for v in 0..5 {
        let (at, with) = [(0, 1), (0, 0)]
            .get(v as usize)
            .map_or((-1, 65_535), |x| *x);
        same("level", level(&rack, v), (0, at))?;
        same("mate", mate(&rack, v), (0, with))?;
        for w in 0..5 {
            let there = [(0, 1), (0, 2)].contains(&(v.min(w), v.max(w)));
            let wanted = if v == w {
                (9, 0)
            } else {
                (0, u32::from(there))
            };
            same("linked", linked(&rack, v, w), wanted)?;
        }
    }
    for at in LEVELS {
        let boards = match at {
            -1 => 3,
            0 => 2,
            _ => 0,
        };
        same("roster", roster(&rack, at), (0, boards))?;
    }
    Ok(())
}

/// Changes with all mixtures of things amiss, on good and bad buffers.
pub fn changes_turned_back(tally: &mut Tally) -> Verdict {
    let good = some_rack();
    let mut buffers = vec![(None, good.clone()), (Some(1), noise(9_992))];
    for (at, byte) in UNSOUND {
        let mut unsound = good.clone();
        unsound[at] = byte;
        buffers.push((Some(6), unsound));
    }
    let earlier = tally.clone();
    for (fixed, buffer) in buffers {
        for code in [0, 1, 2, 3, 257, u32::MAX] {
            for a in BOARDS {
                for b in BOARDS {
                    mixtures(fixed, &buffer, (code, a, b), tally)?;
                }
            }
        }
    }
    let tried = tally.since(&earlier, &[0, 1, 6, 7, 8, 9, 10, 11, 12])?;
    Ok(format!(
        "changes turned back by 1 and 6 to 12 ({tried}): ok"
    ))
}

/// Bytes 4 to 7 that no sound rack has, each at its place.
const UNSOUND: [(usize, u8); 5] = [(4, 1), (4, 9), (5, 4), (6, 1), (7, 128)];

const BOARDS: [u32; 9] = [0, 1, 2, 4, 5, 6, 256, 65_536, u32::MAX];

fn mixtures(
    fixed: Option<u32>,
    buffer: &[u8],
    (code, a, b): (u32, u32, u32),
    tally: &mut Tally,
) -> Result<(), String> {
    let opened = Rack::from_bytes(buffer);
    for words in [&[][..], &[3], &[3, 4], &[u32::MAX; 3]] {
        let told = format!("code {code}, boards {a} {b}, words {words:?}");
        let mut rack = buffer.to_vec();
        let (answer, new_pairs) = change_with_pairs(&mut rack, code, a, b, words);
        tally.note(&answer, new_pairs.len());
        let short = || runs_out(opened.as_ref()?, (code, a, b), words);
        let number = fixed.unwrap_or_else(|| {
            let book = Book::open(buffer);
            book.number_of(code, a, b, || short().is_some())
        });
        same(&told, answer.number, number)?;
        if number != 0 {
            same(&told, answer, Answer::refused(number))?;
            holds(&format!("{told}: nothing is written"), rack == buffer)?;
        } else {
            holds(&format!("{told}: a rack is written"), rack != buffer)?;
        }
    }
    Ok(())
}

/// Runs with all mixtures of a wrong rack length, a wrong text and a wrong
/// record space.
pub fn runs_turned_back(_: &mut Tally) -> Verdict {
    let long = text_of_length(TEXT_LIMIT + 1);
    let texts: [(&str, u32, usize); 13] = [
        (&long, 2, 0),
        (&"\n".repeat(TEXT_LIMIT + 1), 2, 0),
        (&"\n".repeat(TEXT_LIMIT), 4, 1),
        ("\n", 4, 1),
        ("", 0, 0),
        ("(rack (boards 4))\n(add (0 1) (draws 0 00))\n", 4, 2),
        ("(rack (boards 0))\n(add (0 1) (draws 0 0)\n", 4, 2),
        ("(rack (boards 257))\n(add (0 1) (draws))\nx", 4, 3),
        ("(rack (boards 0))\n", 5, 0),
        ("(rack (boards 257))\n(add (0 1) (draws 0 0))\n", 5, 0),
        ("(rack (boards 4294967295))\n", 5, 0),
        ("(rack (boards 4294967296))\n", 4, 1),
        ("(rack (boards 4))\n(add (9 1) (draws 0 0))\n", 0, 0),
    ];
    let mut numbers = [0; 14];
    for (text, number, line) in texts.into_iter().chain(SETTINGS) {
        for rack in [0, 9_992, 10_151, 10_152, 10_153] {
            for record in [0, 65_535, 65_536, 65_537, 70_000] {
                let first = first_number(rack, number, record);
                let line = if first == 4 { line } else { 0 };
                one_run(rack, text, record, first, line)?;
                numbers[first as usize] += 1;
            }
        }
    }
    came("number", &numbers, &[0, 1, 2, 3, 4, 5, 13])?;
    let tried: u64 = numbers.iter().sum();
    Ok(format!(
        "{tried} runs turned back by 1 to 5, by 13 or not: ok"
    ))
}

/// Texts that name settings, with their number and line.
const SETTINGS: [(&str, u32, usize); 7] = [
    ("(rack (boards 4) (growth 1) (top 3))\n", 13, 0),
    ("(rack (boards 4) (growth 9) (top 4))\n", 13, 0),
    ("(rack (boards 4) (growth 4) (top 4294967295))\n", 13, 0),
    ("(rack (boards 4) (growth 4) (top 4294967296))\n", 4, 1),
    ("(rack (boards 4) (growth 0) (top 0))\n\n", 4, 2),
    ("(rack (boards 0) (growth 9) (top 4))\n", 5, 0),
    ("(rack (boards 257) (growth 2) (top 0))\n", 5, 0),
];

/// The record of the only trace that is run, and that of the text of no bytes.
const RECORD: &[u8] = b"(rack (boards 4))\n(refused 8)\n(end (pairs 0) (mean 0 0))\n";
const BLANK: &[u8] = b"(end (pairs 0))\n";

fn first_number(rack: usize, text: u32, record: usize) -> u32 {
    let rack = if rack == RACK_BYTES { 0 } else { 1 };
    let record = if record < RECORD_SPACE { 3 } else { 0 };
    let mut numbers: Vec<u32> = [rack, text, record]
        .into_iter()
        .filter(|&k| k > 0)
        .collect();
    numbers.sort_unstable();
    numbers.first().copied().unwrap_or(0)
}

fn one_run(rack: usize, text: &str, record: usize, first: u32, line: usize) -> Result<(), String> {
    let (mut lent, mut space) = (noise(rack), noise(record));
    let outcome = run(&mut lent, text.as_bytes(), &mut space);
    let start: String = text.chars().take(60).collect();
    let told = format!("run of {start:?} with rack {rack}, record space {record}");
    let written = match (first, text) {
        (0, "") => BLANK,
        (0, _) => RECORD,
        _ => b"",
    };
    let wanted = Outcome {
        number: first,
        line,
        length: written.len(),
    };
    same(&told, outcome, wanted)?;
    let (start, past) = space.split_at(written.len());
    holds(&format!("{told}: the record"), start == written)?;
    let stays = past == &noise(record)[written.len()..];
    holds(&format!("{told}: bytes past the record stay"), stays)?;
    let mut left = noise(rack);
    if written == RECORD {
        make(&mut left, 4);
    }
    holds(&format!("{told}: the rack"), lent == left)
}
