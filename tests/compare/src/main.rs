//! The exported calls of the core set against the independent program: seeded,
//! repeatable and bounded by counts.
//!
//! `compare rack` tries making, the audit and the queries, `compare change`
//! the changes, `compare run` the running of trace texts, and `compare program
//! PATH` what the program for traces prints. Each prints how often each outcome
//! came, and fails if one that can come never did. The first difference ends it:
//! seed and details are printed, and the exit status says so. `compare text
//! FAMILY PLACE` prints the text of one case of `compare run`.

mod asked;
mod both;
mod cases;
mod change_part;
mod change_tally;
mod damage;
mod fans;
mod first_tally;
mod lifts;
mod lists;
mod makings;
mod program_part;
mod rack_part;
mod rack_tally;
mod racks;
mod roster_bits;
mod rosters;
mod run_part;
mod run_tally;
mod runs;
mod setting_bytes;
mod settings_tally;
mod stars;
mod starts;
mod tally;
mod texts;
mod word_tally;

use std::env;
use std::process::ExitCode;

/// What a part gives: nothing, or what differed.
pub type Verdict = Result<(), String>;

fn main() -> ExitCode {
    let arguments: Vec<String> = env::args().skip(1).collect();
    let arguments: Vec<&str> = arguments.iter().map(String::as_str).collect();
    let verdict = match arguments[..] {
        ["rack"] => rack_part::all(),
        ["change"] => change_part::all(),
        ["run"] => run_part::all(),
        ["program", path] => program_part::all(path),
        ["text", family, place] => run_part::print_text(family, place),
        _ => {
            eprintln!("usage: compare rack | change | run | program PATH | text FAMILY PLACE");
            return ExitCode::FAILURE;
        }
    };
    match verdict {
        Ok(()) => ExitCode::SUCCESS,
        Err(why) => {
            println!("compare: {why}");
            ExitCode::FAILURE
        }
    }
}
