//! The grammar: lines that don't fit, and another way of telling which line of
//! a text is the first that doesn't fit.

use super::{same, Tally, Verdict};
use crate::program;

/// Lines that don't fit as line 1.
const NOT_FIRST: [&str; 22] = [
    "",
    " (rack (boards 4))",
    "(rack (boards 4)) ",
    "(rack (boards 4)",
    "(rack (boards 4)))",
    "(rack (boards 4)))(",
    "(rack (boards ))",
    "(rack (boards))",
    "(rack (boards 04))",
    "(rack (boards 00))",
    "(rack (boards +4))",
    "(rack (boards -1))",
    "(rack (boards 4.))",
    "(rack (boards 0x4))",
    "(rack (boards 4 4))",
    "(rack  (boards 4))",
    "(rack (boards  4))",
    "(rack (boards 4 ))",
    "(Rack (boards 4))",
    "(rack (board 4))",
    "(rack (boards 4294967296))",
    "(rack (boards 4))\r",
];

/// Lines that don't fit as a further line.
const NOT_FURTHER: [&str; 36] = [
    "",
    " ",
    "x",
    "(rack (boards 4))",
    "(add (0 1) (draws 0 0)",
    "(add (0 1) (draws 0 0)))",
    "(add (0 1) (draws 0 0)) ",
    " (add (0 1) (draws 0 0))",
    "(add (0 1) (draws 0 0))\r",
    "(add (0 1) (draws 0 0))(add (0 2) (draws 0 0))",
    "(add (0 1) (draws 0  0))",
    "(add (0 1) (draws  0 0))",
    "(add (0 1) (draws 0 0 ))",
    "(add (0 1) (draws ))",
    "(add (0 1) (draws",
    "(add (0 1) draws 0 0)",
    "(add (0 1))",
    "(add (0) (draws 0 0))",
    "(add (0 1 2) (draws 0 0))",
    "(add 0 1 (draws 0 0))",
    "(add (0  1) (draws 0 0))",
    "(add ( 0 1) (draws 0 0))",
    "(add (0 1 ) (draws 0 0))",
    "(add (0 1)(draws 0 0))",
    "(add  (0 1) (draws 0 0))",
    "(add(0 1) (draws 0 0))",
    "(add (00 1) (draws 0 0))",
    "(add (0 01) (draws 0 0))",
    "(add (0 1) (draws 0 00))",
    "(add (0 1) (draws 0 4294967296))",
    "(add (4294967296 1) (draws 0 0))",
    "(drop (0 99999999999999999999999999) (draws 0 0))",
    "(ADD (0 1) (draws 0 0))",
    "(dropp (0 1) (draws 0 0))",
    "(adddrop (0 1) (draws 0 0))",
    "(drop (0 -1) (draws 0 0))",
];

/// Lines that fit, with the record line that they get after 0-1 was added to a
/// rack of four boards.
const FITTING: [(&str, &str); 10] = [
    ("(add (0 1) (draws))", "(refused 10)"),
    ("(add (2 3) (draws))", "(refused 12)"),
    (
        "(add (1 2) (draws))",
        "(done (draws 0) (falls 0) (pairs 1))",
    ),
    (
        "(add (2 3) (draws 4294967295))",
        "(done (draws 1) (falls 0) (pairs 2))",
    ),
    ("(add (4294967295 4294967295) (draws))", "(refused 8)"),
    ("(drop (3 3) (draws))", "(refused 9)"),
    ("(drop (2 3) (draws 0 0))", "(refused 11)"),
    ("(drop (4 0) (draws 0 0))", "(refused 8)"),
    (
        "(add (3 2) (draws 1 1))",
        "(done (draws 1) (falls 0) (pairs 2))",
    ),
    (
        "(drop (1 0) (draws 0 0 0))",
        "(done (draws 0) (falls 2) (pairs 0))",
    ),
];

pub fn damaged_lines(_: &mut Tally) -> Verdict {
    let mut tried = 0;
    for line in NOT_FIRST {
        expect_bad(&format!("{line}\n"), 1)?;
        expect_bad(&format!("{line}\n(add (0 1) (draws 0 0))\n"), 1)?;
        tried += 2;
    }
    let words = |number: usize| format!("(add (0 1) (draws{}))", " 7".repeat(number));
    let mut further: Vec<String> = NOT_FURTHER.iter().map(|line| line.to_string()).collect();
    further.extend([129, 130, 300].map(words));
    for line in &further {
        tried += at_each_line(line)?;
    }
    for text in [
        "\n",
        "(rack (boards 4))",
        "(rack (boards 4))\r\n",
        "(add (0 1) (draws 0 0))\n",
    ] {
        expect_bad(text, 1)?;
        tried += 1;
    }
    for number in [1, 2, 3, 127, 128] {
        let text = format!("(rack (boards 4))\n{}\n", words(number));
        expect_fit(&text, "(done (draws 1) (falls 0) (pairs 1))")?;
    }
    for (line, told) in FITTING {
        expect_fit(
            &format!("(rack (boards 4))\n(add (0 1) (draws 0 0))\n{line}\n"),
            told,
        )?;
    }
    Ok(format!("{tried} texts with one bad line: ok"))
}

/// The bad line as line 2, 3, 4 and 7, with and without a line feed and with
/// worse lines after it.
fn at_each_line(line: &str) -> Result<usize, String> {
    let mut tried = 0;
    for before in [0, 1, 2, 5] {
        let mut text = String::from("(rack (boards 0))\n");
        text += &"(drop (9 9) (draws 12 0))\n".repeat(before);
        text += line;
        if !line.is_empty() {
            expect_bad(&text, before + 2)?;
            tried += 1;
        }
        expect_bad(&format!("{text}\n"), before + 2)?;
        expect_bad(&format!("{text}\n(add (0 1) (draws 0 0))\n\n"), before + 2)?;
        tried += 2;
    }
    Ok(tried)
}

pub fn expect_bad(text: &str, line: usize) -> Result<(), String> {
    let printed = String::from_utf8_lossy(&program(text.as_bytes())).into_owned();
    same(&format!("{text:?}"), printed, format!("(bad 4 {line})\n"))?;
    same(
        &format!("{text:?} told otherwise"),
        first_bad_line(text.as_bytes()),
        Some(line),
    )
}

/// A text that fits, with the last record line before pairs and end.
fn expect_fit(text: &str, told: &str) -> Result<(), String> {
    let printed = String::from_utf8_lossy(&program(text.as_bytes())).into_owned();
    let mut lines = printed.lines().rev();
    let last = lines.find(|line| line.starts_with("(done") || line.starts_with("(refused"));
    same(&format!("{text:?}"), last, Some(told))?;
    same(
        &format!("{text:?} told otherwise"),
        first_bad_line(text.as_bytes()),
        None,
    )
}

/// The first line that doesn't fit, found by cutting the text at line feeds
/// and writing each line again from the numbers in it. A text of no bytes has
/// none.
pub fn first_bad_line(text: &[u8]) -> Option<usize> {
    let mut lines: Vec<&[u8]> = text.split(|&byte| byte == b'\n').collect();
    let rest = lines.pop().unwrap_or(b"");
    let bad = (0..lines.len()).find(|&at| !fits(lines[at], at == 0));
    match bad {
        Some(at) => Some(at + 1),
        None if !rest.is_empty() => Some(lines.len() + 1),
        None => None,
    }
}

fn fits(line: &[u8], first: bool) -> bool {
    let Ok(line) = std::str::from_utf8(line) else {
        return false;
    };
    let runs = line.split(|letter: char| !letter.is_ascii_digit());
    let runs = runs.filter(|run| !run.is_empty());
    let numbers: Result<Vec<u32>, _> = runs.map(|run| run.parse()).collect();
    let Ok(numbers) = numbers else {
        return false;
    };
    match &numbers[..] {
        [n] if first => line == format!("(rack (boards {n}))"),
        [n, g, t] if first => line == format!("(rack (boards {n}) (growth {g}) (top {t}))"),
        [a, b, words @ ..] if !first && words.len() <= 128 => {
            let words: String = words.iter().map(|word| format!(" {word}")).collect();
            let end = format!(" ({a} {b}) (draws{words}))");
            line == format!("(add{end}") || line == format!("(drop{end}")
        }
        _ => false,
    }
}
