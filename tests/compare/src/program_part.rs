//! The program for traces, as it was compiled: what it prints for its standard
//! input.

use crate::runs::shown;
use crate::tally::Seen;
use crate::texts::{families, stated, Case};
use crate::Verdict;
use reference::{program, RACK_BYTES, RECORD_SPACE, TEXT_LIMIT};
use std::io::{ErrorKind, Write};
use std::process::{ChildStdin, Command, Output, Stdio};
use std::thread::{sleep, spawn};
use std::time::Duration;

/// Texts of each family that the program is fed with.
const EACH: u64 = 12;

/// The lengths of input past the limit.
const LONG: [usize; 8] = [
    16_385, 16_386, 20_000, 32_769, 65_536, 65_537, 200_000, 3_000_000,
];

/// How the input comes: at once, or in pieces of so many bytes, with a pause
/// after each of the first.
type Pieces = Option<usize>;

pub fn all(path: &str) -> Verdict {
    let mut numbers = Seen::of("number", [0, 2, 4, 5, 13]);
    for (name, input, pieces) in inputs() {
        let wanted = program(&input);
        numbers.note(number(&wanted));
        one(path, input, pieces, &wanted).map_err(|why| format!("{name}: {why}"))?;
    }
    println!(
        "{} inputs of the program, by {numbers}: equal",
        numbers.sum()
    );
    numbers.all_came()
}

/// The number that is printed, 0 with a record.
fn number(printed: &[u8]) -> u32 {
    let Some(after) = printed.strip_prefix(b"(bad ") else {
        return 0;
    };
    let digits = after.iter().take_while(|byte| byte.is_ascii_digit());
    digits.fold(0, |number, digit| 10 * number + u32::from(digit - b'0'))
}

/// The texts with their names.
fn inputs() -> Vec<(String, Vec<u8>, Pieces)> {
    let mut all = Vec::new();
    for run in stated() {
        all.push((run.name.to_string(), run.case.text.clone(), None));
        all.push((format!("{} in pieces", run.name), run.case.text, Some(7)));
    }
    let lent = |case: &Case| case.rack == RACK_BYTES && case.space == RECORD_SPACE;
    for family in families() {
        let step = (family.cases / EACH).max(1);
        for place in (0..family.cases).step_by(step as usize) {
            let case = (family.make)(place);
            if lent(&case) {
                let pieces = (place % 5 == 4).then_some(1_000);
                let name = format!("{}, case {place}", family.name);
                all.push((name, case.text, pieces));
            }
        }
    }
    all.extend(LONG.map(|length| (format!("{length} bytes"), long(length), None)));
    all.push((
        "too long in pieces".into(),
        long(TEXT_LIMIT + 9),
        Some(4_096),
    ));
    all
}

/// A text that fits but for its length.
fn long(length: usize) -> Vec<u8> {
    let line = b"(add (0 0) (draws))\n";
    let lines = b"(rack (boards 1))\n".iter().chain(line.iter().cycle());
    lines.copied().take(length).collect()
}

fn one(path: &str, input: Vec<u8>, pieces: Pieces, wanted: &[u8]) -> Verdict {
    let output = fed(path, input, pieces).map_err(|why| format!("{path}: {why}"))?;
    if output.stdout != wanted {
        let [came, wanted] = [&output.stdout[..], wanted].map(shown);
        return Err(format!("it printed {came}\nwanted {wanted}"));
    }
    if !output.stderr.is_empty() {
        return Err(format!("it said {}", shown(&output.stderr)));
    }
    match output.status.code() {
        Some(0) => Ok(()),
        _ => Err(format!("it ended with {}", output.status)),
    }
}

/// The program run on this input. It may end before it has taken all of it.
fn fed(path: &str, input: Vec<u8>, pieces: Pieces) -> std::io::Result<Output> {
    let mut child = Command::new(path)
        .stdin(Stdio::piped())
        .stdout(Stdio::piped())
        .stderr(Stdio::piped())
        .spawn()?;
    let stdin = child.stdin.take().expect("a pipe");
    let feeder = spawn(move || feed(stdin, &input, pieces));
    let output = child.wait_with_output();
    match feeder.join().expect("no panic") {
        Err(why) if why.kind() != ErrorKind::BrokenPipe => Err(why),
        _ => output,
    }
}

fn feed(mut stdin: ChildStdin, input: &[u8], pieces: Pieces) -> std::io::Result<()> {
    let size = pieces.unwrap_or(input.len()).max(1);
    for (place, piece) in input.chunks(size).enumerate() {
        if place > 0 && place < 5 {
            sleep(Duration::from_millis(2));
        }
        stdin.write_all(piece)?;
    }
    Ok(())
}
