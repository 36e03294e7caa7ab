//! Running a trace text to a record.

use crate::change::{allowed, made, Answer};
use crate::layout::{make_with, vertices, RackBytes};
use crate::record::Record;
use crate::settings::{self, Setting};
use crate::text::{self, Step, Trace};

/// The most bytes of a trace text, and the least of a record space.
pub const TEXT_LIMIT: usize = 16_384;
pub const RECORD_SPACE: usize = 65_536;

/// The answer of a run: 0 and the record's length, or the number that turns it
/// back, with its line if that is 4.
#[derive(Clone, Copy, Debug, Default, PartialEq, Eq)]
pub struct Outcome {
    pub number: u32,
    pub line: usize,
    pub length: usize,
}

/// Runs a text. Turned back, it writes nothing; otherwise the rack holds the
/// last state and the record stands at the start of its space. No change
/// within a run is audited: the rack is made here and stays sound. A text of no
/// bytes makes none.
pub fn run(rack: &mut RackBytes, text: &[u8], space: &mut [u8]) -> Outcome {
    if text.is_empty() {
        return blank(space);
    }
    let trace = match wanted(text, space.len()) {
        Ok(trace) => trace,
        Err((number, line)) => {
            return Outcome {
                number,
                line,
                length: 0,
            }
        }
    };
    let room = space.len();
    let (growth, top) = trace.settings;
    make_with(rack, trace.vertices as u16, growth as u8, top as u8);
    let setting = Setting::of(rack);
    let mut record = Record::start(space);
    record.put(trace.first_line);
    let mut pairs = 0;
    for step in &trace.steps {
        let answer = one(rack, setting, step, &mut pairs);
        record.answer(&answer);
    }
    record.ending(rack, pairs);
    Outcome {
        number: 0,
        line: 0,
        length: room - record.left(),
    }
}

/// The run of a text of no bytes, which number 3 alone turns back.
#[cold]
fn blank(space: &mut [u8]) -> Outcome {
    let record = b"(end (pairs 0))\n";
    let (number, length) = match space.len() < RECORD_SPACE {
        true => (3, 0),
        false => (0, record.len()),
    };
    space[..length].copy_from_slice(&record[..length]);
    Outcome {
        number,
        line: 0,
        length,
    }
}

/// Numbers 2 to 5 and 13, first fit first, with the line of 4; otherwise the trace.
/// "A setting outside its range is number 13, looked at just after 5, in a trace too".
fn wanted(text: &[u8], space: usize) -> Result<Trace<'_>, (u32, usize)> {
    if text.len() > TEXT_LIMIT {
        return Err((2, 0));
    }
    if space < RECORD_SPACE {
        return Err((3, 0));
    }
    let trace = text::read(text).map_err(|line| (4, line))?;
    if !(1..=256).contains(&trace.vertices) {
        return Err((5, 0));
    }
    let (growth, top) = trace.settings;
    if !settings::in_range(growth, top) {
        return Err((13, 0));
    }
    Ok(trace)
}

/// One change of a run; the pairs held are kept from change to change.
fn one(rack: &mut RackBytes, setting: &'static Setting, step: &Step, pairs: &mut u32) -> Answer {
    let ends = match allowed(rack, step.code, step.a, step.b) {
        Ok(ends) => ends,
        Err(number) => return Answer::refused(number),
    };
    // The words were looked at as they were read, so that their number is all to ask.
    let enough = |rack: &RackBytes, _| step.words.number >= vertices(rack) / 2 && !step.words.high;
    let answer = made(rack, setting, step.code, ends, step.drawn, enough, *pairs);
    if answer.number == 0 {
        *pairs = answer.pairs;
    }
    answer
}
