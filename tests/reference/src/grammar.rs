//! The trace text: what its lines may say, and the first line that doesn't
//! fit.

use crate::calls::{ADD, DROP};

/// "with 0 to 128 words"
pub const MOST_WORDS: usize = 128;

/// One change line of a trace.
#[derive(Clone, Debug, PartialEq, Eq)]
pub struct Step {
    pub code: u32,
    pub a: u32,
    pub b: u32,
    pub words: Vec<u32>,
}

/// Line 1 of a trace: the board number asked for, and the growth and the top level
/// if it names them.
#[derive(Clone, Copy, Debug, PartialEq, Eq)]
pub struct First {
    pub boards: u32,
    pub settings: Option<(u32, u32)>,
}

/// A whole trace: line 1 and the changes.
#[derive(Clone, Debug, PartialEq, Eq)]
pub struct Trace {
    pub first: First,
    pub steps: Vec<Step>,
}

/// Reads a whole text of some bytes, or gives the number of the first line that
/// doesn't fit.
/// "Lines are numbered from 1; bytes after the last line feed are a line that
/// doesn't fit."
pub fn read(text: &[u8]) -> Result<Trace, usize> {
    let mut text = Reader { rest: text };
    let first = text.line().and_then(rack_line).ok_or(1usize)?;
    let mut steps = Vec::new();
    while !text.rest.is_empty() {
        let number = steps.len() + 2;
        let step = text.line().and_then(change_line).ok_or(number)?;
        steps.push(step);
    }
    Ok(Trace { first, steps })
}

/// "Line 1 is `(rack (boards N))`." And: "Line 1 may read `(rack (boards N) (growth
/// G) (top T))`" (document 02, W-207).
fn rack_line(line: &[u8]) -> Option<First> {
    let mut line = Reader { rest: line };
    line.word("(rack (boards ")?;
    let boards = line.number()?;
    line.word(")")?;
    let mut settings = None;
    if line.word(" (growth ").is_some() {
        let growth = line.number()?;
        line.word(") (top ")?;
        settings = Some((growth, line.number()?));
        line.word(")")?;
    }
    line.word(")")?;
    line.end()?;
    Some(First { boards, settings })
}

/// "Each further line is `(add (A B) (draws W W))` or the same with `drop`,
/// with 0 to 128 words, one space before each; no words is `(draws)`."
fn change_line(line: &[u8]) -> Option<Step> {
    let mut line = Reader { rest: line };
    let code = line.code()?;
    line.word(" (")?;
    let a = line.number()?;
    line.word(" ")?;
    let b = line.number()?;
    line.word(") (draws")?;
    let mut words = Vec::new();
    while line.word(" ").is_some() {
        words.push(line.number()?);
    }
    line.word("))")?;
    line.end()?;
    (words.len() <= MOST_WORDS).then_some(Step { code, a, b, words })
}

/// The bytes still to be read.
struct Reader<'a> {
    rest: &'a [u8],
}

impl<'a> Reader<'a> {
    /// "Every line ends in a line feed (byte 10), the last too." The line
    /// without its line feed; none if no line feed is left.
    fn line(&mut self) -> Option<&'a [u8]> {
        let length = self.rest.iter().position(|&byte| byte == 10)?;
        let line = &self.rest[..length];
        self.rest = &self.rest[length + 1..];
        Some(line)
    }

    /// Passes over these bytes if they come next.
    fn word(&mut self, word: &str) -> Option<()> {
        self.rest = self.rest.strip_prefix(word.as_bytes())?;
        Some(())
    }

    fn code(&mut self) -> Option<u32> {
        if self.word("(add").is_some() {
            return Some(ADD);
        }
        self.word("(drop").map(|()| DROP)
    }

    /// "A number is in decimal digits, 0 to 4,294,967,295, no leading zero".
    fn number(&mut self) -> Option<u32> {
        let digits = self.rest.iter().take_while(|byte| byte.is_ascii_digit());
        let digits = &self.rest[..digits.count()];
        self.rest = &self.rest[digits.len()..];
        if digits.is_empty() || (digits[0] == b'0' && digits.len() > 1) {
            return None;
        }
        let mut number: u32 = 0;
        for digit in digits {
            number = number.checked_mul(10)?;
            number = number.checked_add(u32::from(digit - b'0'))?;
        }
        Some(number)
    }

    fn end(&self) -> Option<()> {
        self.rest.is_empty().then_some(())
    }
}
