//! Times the calls of the pairing core against the tuned program.
//!
//! `rackbench` prints a table of times. `rackbench once SIDE KIND SIZE CALLS`
//! makes one kind of call so many times on one side alone, for a tool that
//! counts instructions, and prints how many calls, or changes of runs, that
//! was. SIDE is core, tuned or bare (tuned without the audit before a change or
//! a roster query); KIND is audit, roster (the query for the number of boards at
//! a level) or parted (the drop of a pair; SIZE: links of 256 boards), drawn,
//! tried or short (the drop of a pair that draws, with all words, just those that
//! it uses, or none; SIZE the same), half or full (the drop of a pair where half of
//! all links are, or all of them), half-audit or full-audit (the audits of the racks
//! of these), direct, before (the audits of the racks of direct), series, or a kind
//! of text to run: run, pairs, refused, words or line (SIZE: boards). With the
//! feature apart the rises of the tuned program stand apart from its takings.

mod cases;
mod once;
mod side;
mod table;
mod texts;

use side::Side;
use std::env;
use std::process::ExitCode;

fn main() -> ExitCode {
    let arguments: Vec<String> = env::args().skip(1).collect();
    let arguments: Vec<&str> = arguments.iter().map(String::as_str).collect();
    match arguments[..] {
        [] => {
            table::print();
            ExitCode::SUCCESS
        }
        ["once", side, kind, size, calls] => told(one_kind(side, kind, size, calls)),
        _ => told(Err("usage: rackbench [once SIDE KIND SIZE CALLS]".into())),
    }
}

fn one_kind(side: &str, kind: &str, size: &str, calls: &str) -> Result<usize, String> {
    let number = |text: &str| text.parse().map_err(|_| format!("no number: {text}"));
    let side = Side::named(side).ok_or(format!("no such side: {side}"))?;
    once::once(side, kind, number(size)?, number(calls)?)
}

fn told(calls: Result<usize, String>) -> ExitCode {
    match calls {
        Ok(calls) => {
            println!("{calls}");
            ExitCode::SUCCESS
        }
        Err(why) => {
            eprintln!("rackbench: {why}");
            ExitCode::FAILURE
        }
    }
}
