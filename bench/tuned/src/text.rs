//! Reading a trace text. The whole text is looked through once; a change keeps
//! the place of its words.

use crate::digits::{number, sixteen};
use crate::settings::SHORT;
use crate::words::{pass, Drawn, Passed};

/// One change line of a trace.
pub struct Step<'a> {
    pub code: u32,
    pub a: u32,
    pub b: u32,
    /// What words the line brings, and the text from their place on.
    pub words: Passed,
    pub drawn: Drawn<'a>,
}

/// A whole trace: the number of vertices and the settings asked for, growth and
/// top level, line 1 as it stands, and the changes.
pub struct Trace<'a> {
    pub vertices: u32,
    pub settings: (u32, u32),
    pub first_line: &'a [u8],
    pub steps: Vec<Step<'a>>,
}

/// The most words that a line brings.
const MOST_WORDS: usize = 128;

/// The length of the shortest change line.
const SHORTEST: usize = 20;

/// Reads a whole text, or gives the first line that doesn't fit. No literal of
/// the grammar but the last of a line has a line feed in it, so the line at
/// which reading ends is that line.
pub fn read(text: &[u8]) -> Result<Trace<'_>, usize> {
    let (vertices, rest) = vertices(text).ok_or(1_usize)?;
    let (settings, mut rest) = settings(rest).ok_or(1_usize)?;
    let first_line = &text[..text.len() - rest.len()];
    let mut steps = Vec::with_capacity(text.len() / SHORTEST);
    while !rest.is_empty() {
        let (step, after) = change_line(rest).ok_or(steps.len() + 2)?;
        steps.push(step);
        rest = after;
    }
    Ok(Trace {
        vertices,
        settings,
        first_line,
        steps,
    })
}

fn vertices(text: &[u8]) -> Option<(u32, &[u8])> {
    number(text.strip_prefix(b"(rack (boards ")?)
}

/// The settings in the rest of line 1: "the short line means 4 and 3".
fn settings(text: &[u8]) -> Option<((u32, u32), &[u8])> {
    if let Some(rest) = line_end(text) {
        return Some(((SHORT.0.into(), SHORT.1.into()), rest));
    }
    let (growth, rest) = number(text.strip_prefix(b") (growth ")?)?;
    let (top, rest) = number(rest.strip_prefix(b") (top ")?)?;
    Some(((growth, top), line_end(rest)?))
}

#[inline(always)]
fn change_line(text: &[u8]) -> Option<(Step<'_>, &[u8])> {
    let (code, rest) = code(text)?;
    let (a, rest) = number(rest)?;
    let (b, rest) = number(rest.strip_prefix(b" ")?)?;
    let rest = rest.strip_prefix(b") (draws")?;
    let drawn = Drawn { rest };
    let (words, rest) = pass(rest)?;
    let step = Step {
        code,
        a,
        b,
        words,
        drawn,
    };
    let rest = line_end(rest)?;
    (step.words.number <= MOST_WORDS).then_some((step, rest))
}

/// The beginnings of a change line, and the bits of eight bytes that they take.
const ADD: u64 = u64::from_le_bytes(*b"(add (\0\0");
const DROP: u64 = u64::from_le_bytes(*b"(drop (\0");
const SIX: u64 = u64::MAX >> 16;
const SEVEN: u64 = u64::MAX >> 8;

#[inline(always)]
fn code(text: &[u8]) -> Option<(u32, &[u8])> {
    let [head, _] = sixteen(text);
    if head & SIX == ADD {
        return Some((1, text.get(6..)?));
    }
    if head & SEVEN == DROP {
        return Some((2, text.get(7..)?));
    }
    None
}

#[inline(always)]
fn line_end(text: &[u8]) -> Option<&[u8]> {
    text.strip_prefix(b"))\n")
}
