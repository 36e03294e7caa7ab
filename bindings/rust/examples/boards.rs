//! Runs the trace on standard input and prints what the rack then holds, a line
//! for each board: its level, its mate, the boards to which it owns a link, and
//! its counts at levels 0 to 3, which are 0 above the rack's top level.
//!
//! Owners and counts have no query, so these two are read from the bytes, at the
//! offsets of document 01.

use std::io::{self, Read};
use std::process::ExitCode;

use pairing::Number;

const COUNTS: usize = 776;
const ROWS: usize = 1_800;
const LEVELS: usize = 4;
const ROW_BYTES: usize = 32;

/// The boards below n to which v owns a link.
fn owned(rack: &[u8], v: usize, n: usize) -> Vec<String> {
    let row = &rack[ROWS + ROW_BYTES * v..][..ROW_BYTES];
    let owns = |w: &usize| row[w / 8] >> (w % 8) & 1 == 1;
    (0..n).filter(owns).map(|w| w.to_string()).collect()
}

fn print_board(rack: &[u8], v: usize, n: usize) -> Result<(), Number> {
    let level = pairing::level(rack, v as u32).result()?;
    let mate = pairing::mate(rack, v as u32).result()?;
    let mate = mate.map_or("-".to_string(), |w| w.to_string());
    let counts = &rack[COUNTS + LEVELS * v..][..LEVELS];
    let counts: Vec<String> = counts.iter().map(u8::to_string).collect();
    let owns = owned(rack, v, n).join(" ");
    let line = format!(
        "{v:5}  {level:5}  {mate:>4}  {:11}  {owns}",
        counts.join(" ")
    );
    println!("{}", line.trim_end());
    Ok(())
}

/// Runs the text, and prints every board of the rack that it leaves.
fn print_boards(text: &[u8]) -> Result<(), String> {
    let mut rack = vec![0; pairing::RACK_BYTES];
    let mut space = vec![0; pairing::RECORD_SPACE];
    let outcome = pairing::run(&mut rack, text, &mut space);
    if outcome.number == Number::BAD_LINE {
        return Err(format!(
            "line {} of the trace isn't written as it must be",
            outcome.line
        ));
    }
    outcome.result().map_err(|number| number.to_string())?;
    if text.is_empty() {
        return Err("the trace has no line, so no rack was set: name its boards in line 1".into());
    }
    let n = usize::from(rack[0]) + 256 * usize::from(rack[1]);
    println!("board  level  mate  counts 0-3   owns links to");
    (0..n)
        .try_for_each(|v| print_board(&rack, v, n))
        .map_err(|number| number.to_string())
}

fn main() -> ExitCode {
    let mut text = Vec::new();
    let read = io::stdin().read_to_end(&mut text);
    let printed = read
        .map_err(|error| format!("reading the trace: {error}"))
        .and_then(|_| print_boards(&text));
    match printed {
        Ok(()) => ExitCode::SUCCESS,
        Err(reason) => {
            eprintln!("boards: {reason}");
            ExitCode::FAILURE
        }
    }
}
