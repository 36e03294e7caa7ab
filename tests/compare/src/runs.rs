//! A run made on the core and on the independent program, with equal answers,
//! equal racks and equal record spaces, or a word on what differs.

use crate::both::{first_difference, guarded, same, same_bytes};
use crate::rack_part::noise;
use crate::texts::Case;
use crate::Verdict;
use reference::Outcome;

/// What stands after a text in memory, where a run mustn't look.
const TEMPTING: [&[u8]; 4] = [b"\n", b"))\n", b" 1))\n", b"0"];

/// The most bytes of a text that a message shows.
const SHOWN: usize = 400;

/// Bytes with which the buffers are filled before each run.
pub struct Stage {
    noise: Vec<u8>,
}

/// A run that is the same on both sides.
pub struct Ran {
    pub outcome: Outcome,
    pub rack: Vec<u8>,
    pub record: Vec<u8>,
}

impl Stage {
    /// For rack buffers and record spaces of at most so many bytes.
    pub fn new(most: usize) -> Stage {
        let mut noise = noise(most, 0x6000_0000);
        // No byte that a run could leave by chance in a buffer it clears.
        for byte in &mut noise {
            *byte |= 1;
        }
        Stage { noise }
    }

    pub fn run(&self, case: &Case) -> Result<Ran, String> {
        self.both(case)
            .map_err(|why| format!("{why}\nin a text of {}", shown(&case.text)))
    }

    fn both(&self, case: &Case) -> Result<Ran, String> {
        let (rack, space) = (&self.noise[..case.rack], &self.noise[..case.space]);
        let (core, core_rack, core_space) = core_run(rack, &case.text, space)?;
        let (mut rack, mut space) = (rack.to_vec(), space.to_vec());
        let outcome = reference::run(&mut rack, &case.text, &mut space);
        same("number, line and length", core, outcome)?;
        same_bytes("rack", &core_rack, &rack)?;
        same_space(&core_space, &space)?;
        space.truncate(outcome.length);
        Ok(Ran {
            outcome,
            rack,
            record: space,
        })
    }
}

/// A run of the core: its answer, and the bytes of both buffers after it.
fn core_run(rack: &[u8], text: &[u8], space: &[u8]) -> Result<(Outcome, Vec<u8>, Vec<u8>), String> {
    let tempting = TEMPTING[text.len() % TEMPTING.len()];
    let lent = [text, tempting].concat();
    let run = |rack: &mut [u8]| {
        guarded(space, |space| {
            pairing::run(rack, &lent[..text.len()], space)
        })
    };
    let (inner, rack) = guarded(rack, run)?;
    let (answer, space) = inner?;
    let stays = lent.starts_with(text) && lent.ends_with(tempting);
    same("the text lent stays", stays, true)?;
    let outcome = Outcome {
        number: answer.number.0,
        line: answer.line,
        length: answer.length,
    };
    Ok((outcome, rack, space))
}

/// An error naming the first byte of the record space that differs, and what
/// stands around it, or the lengths if these differ.
fn same_space(core: &[u8], wanted: &[u8]) -> Verdict {
    same("length of the record space", core.len(), wanted.len())?;
    let Some(at) = first_difference(core, wanted) else {
        return Ok(());
    };
    let around = |bytes: &[u8]| {
        let end = bytes.len().min(at + 30);
        bytes[at.saturating_sub(30)..end].escape_ascii().to_string()
    };
    let (core, wanted) = (around(core), around(wanted));
    Err(format!(
        "record space from byte {at} on: core {core}, wanted {wanted}"
    ))
}

/// A text as a message shows it.
pub fn shown(text: &[u8]) -> String {
    let most = text.len().min(SHOWN);
    let dots = if most < text.len() { ".." } else { "" };
    let escaped = text[..most].escape_ascii();
    format!("{} bytes: {escaped}{dots}", text.len())
}
