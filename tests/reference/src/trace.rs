//! Running a trace text to a record, and what the program prints.

use crate::calls::{board_number_fits, change_rack, Answer};
use crate::grammar::{self, First, Trace};
use crate::image::RACK_BYTES;
use crate::rack::{Rack, Settings};

/// "2. The trace text is over 16,384 bytes."
pub const TEXT_LIMIT: usize = 16_384;

/// "3. The record space is under 65,536 bytes."
pub const RECORD_SPACE: usize = 65_536;

/// The answer of a run: 0 and the record's length, or the number with its line
/// (0 unless the number is 4).
#[derive(Clone, Copy, Debug, PartialEq, Eq)]
pub struct Outcome {
    pub number: u32,
    pub line: usize,
    pub length: usize,
}

/// The record of a text of no bytes, by which "no rack was set": "the one line
/// `(end (pairs 0))`" (document 02, W-201); it "has no mean" (W-202).
const BLANK: &str = "(end (pairs 0))\n";

/// Runs a trace text. Turned back, it writes nothing lent; otherwise the rack
/// buffer "holds the last state at the end", or "keeps its bytes" if no rack was
/// set, and the record stands at the start of the record space, whose further
/// bytes "keep their values".
pub fn run(rack: &mut [u8], text: &[u8], record: &mut [u8]) -> Outcome {
    let lines = match wanted(rack.len(), text, record.len()) {
        Ok(Some((fresh, trace))) => {
            let (last, lines) = play(fresh, &trace);
            rack.copy_from_slice(&last.to_bytes());
            lines
        }
        Ok(None) => BLANK.into(),
        Err(outcome) => return outcome,
    };
    record[..lines.len()].copy_from_slice(lines.as_bytes());
    Outcome {
        number: 0,
        line: 0,
        length: lines.len(),
    }
}

/// A trace that was read, with the rack that it sets.
type Wanted = (Rack, Trace);

/// "a trace 1 to 5", and 13 "just after 5, in a trace too" (document 02, W-207),
/// first fit first; otherwise the trace that was read, or none for a text of no
/// bytes, which "is taken unless 1 or 3 fits".
fn wanted(rack: usize, text: &[u8], record: usize) -> Result<Option<Wanted>, Outcome> {
    if rack != RACK_BYTES {
        return Err(turned_back(1, 0));
    }
    if text.len() > TEXT_LIMIT {
        return Err(turned_back(2, 0));
    }
    if record < RECORD_SPACE {
        return Err(turned_back(3, 0));
    }
    if text.is_empty() {
        return Ok(None);
    }
    let trace = grammar::read(text).map_err(|line| turned_back(4, line))?;
    let First { boards, settings } = trace.first;
    if !board_number_fits(boards) {
        return Err(turned_back(5, 0));
    }
    // "the short line means 4 and 3" (W-207)
    let (growth, top) = settings.unwrap_or((4, 3));
    let settings = Settings::of(growth, top).ok_or(turned_back(13, 0))?;
    Ok(Some((Rack::empty_with(settings, boards as usize), trace)))
}

fn turned_back(number: u32, line: usize) -> Outcome {
    Outcome {
        number,
        line,
        length: 0,
    }
}

/// "The record repeats line 1, has one line for each change, then the pairs by
/// rising lower board, then the end line".
fn play(mut rack: Rack, trace: &Trace) -> (Rack, String) {
    let mut lines = rack_line(&trace.first);
    for step in &trace.steps {
        let (answer, _) = change_rack(&mut rack, step.code, step.a, step.b, &step.words);
        lines += &change_line(&answer);
    }
    for (a, b) in rack.pairs() {
        lines += &format!("(pair ({a} {b}) (level {}))\n", rack.level[a]);
    }
    let (whole, rest) = mean(&rack);
    let pairs = rack.pairs().len();
    lines += &format!("(end (pairs {pairs}) (mean {whole} {rest}))\n");
    (rack, lines)
}

/// Line 1 in the form in which it was given.
fn rack_line(first: &First) -> String {
    let n = first.boards;
    match first.settings {
        None => format!("(rack (boards {n}))\n"),
        Some((growth, top)) => {
            format!("(rack (boards {n}) (growth {growth}) (top {top}))\n")
        }
    }
}

/// "twice the links equals Q times n plus R and R is below n" (document 02,
/// W-202): n is taken away as often as it goes.
fn mean(rack: &Rack) -> (usize, usize) {
    let (mut whole, mut rest) = (0, 2 * rack.link_number());
    while rest >= rack.n {
        whole += 1;
        rest -= rack.n;
    }
    (whole, rest)
}

/// "An accepted change has the line `(done (draws D) (falls F) (pairs P))` with
/// its figures. A refused change (8 to 12) gives its number K as
/// `(refused K)`".
fn change_line(answer: &Answer) -> String {
    if answer.number != 0 {
        return format!("(refused {})\n", answer.number);
    }
    format!(
        "(done (draws {}) (falls {}) (pairs {}))\n",
        answer.draws, answer.falls, answer.pairs
    )
}

/// What the program prints for its standard input: "the record, or
/// `(bad K L)`: K the number, L the first line that doesn't fit for number 4,
/// otherwise 0."
pub fn program(input: &[u8]) -> Vec<u8> {
    let mut rack = vec![0; RACK_BYTES];
    let mut record = vec![0; RECORD_SPACE];
    let outcome = run(&mut rack, input, &mut record);
    if outcome.number != 0 {
        return format!("(bad {} {})\n", outcome.number, outcome.line).into_bytes();
    }
    record.truncate(outcome.length);
    record
}
