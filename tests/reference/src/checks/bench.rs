//! The worked example of the paper and its bench cases P1 to P13, with the end
//! line, P9 and P12 as document 02 changes them.

use super::{holds, same, Tally, Verdict};
use crate::{audit, change, level, linked, make, mate, program, run, Answer};
use crate::{RACK_BYTES, RECORD_SPACE, TEXT_LIMIT};

pub const EXAMPLE: &str = "\
(rack (boards 4))
(add (0 1) (draws 0 0))
(add (1 2) (draws 0 0))
(add (2 3) (draws 0 0))
(drop (0 1) (draws 0 0))
(add (2 3) (draws 0 0))
";

pub const EXAMPLE_RECORD: &str = "\
(rack (boards 4))
(done (draws 1) (falls 0) (pairs 1))
(done (draws 0) (falls 0) (pairs 1))
(done (draws 1) (falls 0) (pairs 2))
(done (draws 0) (falls 2) (pairs 1))
(refused 10)
(pair (2 3) (level 0))
(end (pairs 1) (mean 1 0))
";

pub fn worked_example(_: &mut Tally) -> Verdict {
    let printed = String::from_utf8(program(EXAMPLE.as_bytes())).map_err(|bad| bad.to_string())?;
    same("worked example", printed.as_str(), EXAMPLE_RECORD)?;
    Ok("worked example: ok".into())
}

/// Each case gives the number of changes that it tried.
pub fn bench_cases(tally: &mut Tally) -> Verdict {
    type Case = fn() -> Result<u64, String>;
    let cases: [(&str, Case); 13] = [
        ("P1", p1),
        ("P2", p2),
        ("P3", || p3().map(|_| 3)),
        ("P4", || p4().map(|_| 4)),
        ("P5", p5),
        ("P6", p6),
        ("P7", p7),
        ("P8", p8),
        ("P9", p9),
        ("P10", p10),
        ("P11", p11),
        ("P12", p12),
        ("P13", p13),
    ];
    for (name, case) in cases {
        tally.changes += case().map_err(|why| format!("{name}: {why}"))?;
    }
    Ok("P1 to P13: ok".into())
}

fn fresh(n: u32) -> Vec<u8> {
    let mut rack = vec![0; RACK_BYTES];
    make(&mut rack, n);
    rack
}

fn accepted(draws: u64, falls: u32, pairs: u32) -> Answer {
    Answer {
        number: 0,
        draws,
        falls,
        pairs,
    }
}

/// The pairs of a rack with their level, and the level -1 of all other boards.
fn holds_pairs(rack: &[u8], n: u32, pairs: &[(u32, u32, i32)]) -> Result<(), String> {
    for v in 0..n {
        let pair = pairs.iter().find(|(a, b, _)| *a == v || *b == v);
        let (with, at) = pair.map_or((65_535, -1), |(a, b, level)| (a + b - v, *level));
        same(&format!("mate of {v}"), mate(rack, v), (0, with))?;
        same(&format!("level of {v}"), level(rack, v), (0, at))?;
    }
    Ok(())
}

fn p1() -> Result<u64, String> {
    let mut rack = fresh(1);
    same("0-0", change(&mut rack, 1, 0, 0, &[]), Answer::refused(9))?;
    same("0-1", change(&mut rack, 1, 0, 1, &[]), Answer::refused(8))?;
    Ok(2)
}

fn p2() -> Result<u64, String> {
    let mut rack = fresh(2);
    same("0-1", change(&mut rack, 1, 0, 1, &[7]), accepted(1, 0, 1))?;
    holds_pairs(&rack, 2, &[(0, 1, 0)])?;
    Ok(1)
}

fn p3() -> Result<Vec<u8>, String> {
    let mut rack = fresh(5);
    same(
        "0-1",
        change(&mut rack, 1, 0, 1, &[0, 0]),
        accepted(1, 0, 1),
    )?;
    same(
        "0-2",
        change(&mut rack, 1, 0, 2, &[0, 0]),
        accepted(0, 0, 1),
    )?;
    same(
        "0-3",
        change(&mut rack, 1, 0, 3, &[0, 0]),
        accepted(0, 0, 1),
    )?;
    holds_pairs(&rack, 5, &[(0, 1, 0)])?;
    Ok(rack)
}

fn p4() -> Result<Vec<u8>, String> {
    let mut rack = p3()?;
    same(
        "0-4",
        change(&mut rack, 1, 0, 4, &[2, 0]),
        accepted(1, 1, 1),
    )?;
    holds_pairs(&rack, 5, &[(0, 3, 1)])?;
    Ok(rack)
}

fn p5() -> Result<u64, String> {
    let mut rack = p3()?;
    same(
        "0-4",
        change(&mut rack, 1, 0, 4, &[4, 0]),
        accepted(1, 0, 1),
    )?;
    holds_pairs(&rack, 5, &[(0, 1, 1)])?;
    Ok(4)
}

fn p6() -> Result<u64, String> {
    let mut rack = p4()?;
    same(
        "0-3",
        change(&mut rack, 2, 0, 3, &[5, 0]),
        accepted(1, 3, 1),
    )?;
    holds_pairs(&rack, 5, &[(0, 4, 0)])?;
    Ok(5)
}

fn p7() -> Result<u64, String> {
    let mut rack = p4()?;
    same(
        "0-1",
        change(&mut rack, 2, 0, 1, &[0, 0]),
        accepted(0, 0, 1),
    )?;
    holds_pairs(&rack, 5, &[(0, 3, 1)])?;
    Ok(5)
}

fn p8() -> Result<u64, String> {
    let mut rack = fresh(4);
    same(
        "0-1",
        change(&mut rack, 1, 0, 1, &[0, 0]),
        accepted(1, 0, 1),
    )?;
    same(
        "0-2",
        change(&mut rack, 1, 0, 2, &[0, 0]),
        accepted(0, 0, 1),
    )?;
    same(
        "1-3",
        change(&mut rack, 1, 1, 3, &[0, 0]),
        accepted(0, 0, 1),
    )?;
    same(
        "drop",
        change(&mut rack, 2, 0, 1, &[0, 0]),
        accepted(2, 0, 2),
    )?;
    holds_pairs(&rack, 4, &[(0, 2, 0), (1, 3, 0)])?;
    Ok(4)
}

/// "P9 becomes: n = 5, no links, adding 0-1 gets 12 with no word and runs with
/// one." (document 02, W-206)
fn p9() -> Result<u64, String> {
    let mut rack = fresh(5);
    let none = change(&mut rack, 1, 0, 1, &[]);
    same("no word", none, Answer::refused(12))?;
    holds("nothing is written", rack == fresh(5))?;
    let one = change(&mut rack, 1, 0, 1, &[0]);
    same("one word", one, accepted(1, 0, 1))?;
    Ok(2)
}

fn p10() -> Result<u64, String> {
    let mut rack = p3()?;
    same(
        "no words",
        change(&mut rack, 1, 1, 0, &[]),
        Answer::refused(10),
    )?;
    Ok(4)
}

fn p11() -> Result<u64, String> {
    let mut rack = p3()?;
    rack[1800] |= 1 << 1;
    rack[1800 + 32] |= 1;
    let before = rack.clone();
    same("audit", audit(&rack), (0, false))?;
    same("level", level(&rack, 0), (6, 0))?;
    same("mate", mate(&rack, 0), (6, 0))?;
    same("linked", linked(&rack, 0, 1), (6, 0))?;
    same(
        "drop",
        change(&mut rack, 2, 0, 1, &[0, 0]),
        Answer::refused(6),
    )?;
    holds("nothing is written", rack == before)?;
    Ok(4)
}

fn p12() -> Result<u64, String> {
    same("empty text", program(b""), b"(end (pairs 0))\n".to_vec())?;
    same("a line feed", program(b"\n"), b"(bad 4 1)\n".to_vec())?;
    Ok(0)
}

fn p13() -> Result<u64, String> {
    let (mut rack, mut record) = (fresh(1), vec![9; RECORD_SPACE]);
    let text = text_of_length(TEXT_LIMIT);
    same("text length", text.len(), 16_384)?;
    let read = run(&mut rack, text.as_bytes(), &mut record);
    same("16,384 bytes", (read.number, read.line), (0, 0))?;
    // All changes but the last bring no word.
    let refused = "(refused 12)\n".repeat(text.lines().count() - 2);
    let wanted = format!("(rack (boards 4))\n{refused}{LAST_LINES}");
    let written = String::from_utf8_lossy(&record[..read.length]);
    same("record", written.as_ref(), wanted.as_str())?;
    let text = text_of_length(TEXT_LIMIT + 1);
    let over = run(&mut rack, text.as_bytes(), &mut record);
    same(
        "16,385 bytes",
        (over.number, over.line, over.length),
        (2, 0, 0),
    )?;
    same("printed", program(text.as_bytes()), b"(bad 2 0)\n".to_vec())?;
    Ok(0)
}

/// The record of an add that makes the only pair, and the lines after it.
const LAST_LINES: &str = "\
(done (draws 1) (falls 0) (pairs 1))
(pair (0 1) (level 0))
(end (pairs 1) (mean 0 2))
";

/// A text that fits the grammar and is this long.
pub fn text_of_length(length: usize) -> String {
    let mut text = String::from("(rack (boards 4))\n");
    while length - text.len() >= 40 {
        text += "(add (0 1) (draws))\n";
    }
    // The last line takes up the 20 to 39 bytes left.
    let left = length - text.len();
    let start = ["(add (0 1) (draws", "(drop (0 1) (draws"][left % 2];
    text + start + &" 0".repeat((left - 20) / 2) + "))\n"
}
