//! Line 1 in its long form: "Line 1 may read `(rack (boards N) (growth G) (top T))`;
//! the short line means 4 and 3." (document 02, W-207)

use super::bench::{EXAMPLE, EXAMPLE_RECORD};
use super::texts::expect_bad;
use super::{same, Tally, Verdict};
use crate::{make, make_with, program, run, RACK_BYTES, RECORD_SPACE};

/// A text at growth 2 and top level 1, worked out by hand. By its second link 0 has
/// two neighbours, rises to 1 and draws 2, so that 1 falls; by its third it can't rise
/// any more. Parted from 2, it has 1 and 3 below level 1, stays and draws 1; 2 falls
/// to -1.
const WORKED: &str = "\
(rack (boards 5) (growth 2) (top 1))
(add (0 1) (draws 0))
(add (0 2) (draws 1))
(add (0 3) (draws))
(add (3 4) (draws 0))
(drop (0 2) (draws 0))
";

const WORKED_RECORD: &str = "\
(rack (boards 5) (growth 2) (top 1))
(done (draws 1) (falls 0) (pairs 1))
(done (draws 1) (falls 1) (pairs 1))
(done (draws 0) (falls 0) (pairs 1))
(done (draws 1) (falls 0) (pairs 2))
(done (draws 1) (falls 2) (pairs 2))
(pair (0 1) (level 1))
(pair (3 4) (level 0))
(end (pairs 2) (mean 1 1))
";

/// Long lines that don't fit.
const NOT_FIRST: [&str; 37] = [
    "(rack (boards 4) (growth 4))",
    "(rack (boards 4) (top 3))",
    "(rack (growth 4) (top 3))",
    "(rack (boards 4) (top 3) (growth 4))",
    "(rack (growth 4) (boards 4) (top 3))",
    "(rack (boards 4) (growth 4) (top 3)",
    "(rack (boards 4) (growth 4) (top 3)))",
    "(rack (boards 4) (growth 4) (top 3)) ",
    "(rack (boards 4) (growth 4) (top 3) )",
    "(rack (boards 4) (growth 4) (top 3) (top 3))",
    "(rack (boards 4) (growth 4) (growth 4) (top 3))",
    "(rack (boards 4) (growth 4) (top 3) (growth 4) (top 3))",
    "(rack (boards 4) (boards 4) (growth 4) (top 3))",
    "(rack (boards 4)) (growth 4) (top 3))",
    "(rack (boards 4)(growth 4) (top 3))",
    "(rack (boards 4) (growth 4)(top 3))",
    "(rack (boards 4)  (growth 4) (top 3))",
    "(rack (boards 4) (growth 4)  (top 3))",
    "(rack (boards 4) (growth  4) (top 3))",
    "(rack (boards 4) (growth 4 ) (top 3))",
    "(rack (boards 4) (growth 4) (top  3))",
    "(rack (boards 4) (growth 4) (top 3 ))",
    "(rack (boards 4) (growth) (top 3))",
    "(rack (boards 4) (growth ) (top 3))",
    "(rack (boards 4) (growth 4) (top))",
    "(rack (boards 4) (growth 4) (top ))",
    "(rack (boards 4) (growth 04) (top 3))",
    "(rack (boards 4) (growth 4) (top 03))",
    "(rack (boards 04) (growth 4) (top 3))",
    "(rack (boards 4) (growth -4) (top 3))",
    "(rack (boards 4) (growth 4) (top -1))",
    "(rack (boards 4) (growth 4294967296) (top 3))",
    "(rack (boards 4) (growth 4) (top 4294967296))",
    "(rack (boards 4) (growths 4) (top 3))",
    "(rack (boards 4) (Growth 4) (top 3))",
    "(rack (boards 4) (growth 4) (to 3))",
    "(rack (boards 4) (growth 4) (top 3))\r",
];

/// Texts that are turned back, and what is printed: 4 comes before 5, and 5 before 13.
const TURNED_BACK: [(&str, &str); 14] = [
    ("(rack (boards 4) (growth 1) (top 3))\n", "(bad 13 0)\n"),
    ("(rack (boards 4) (growth 0) (top 3))\n", "(bad 13 0)\n"),
    ("(rack (boards 4) (growth 9) (top 3))\n", "(bad 13 0)\n"),
    ("(rack (boards 4) (growth 4) (top 4))\n", "(bad 13 0)\n"),
    ("(rack (boards 1) (growth 3) (top 8))\n", "(bad 13 0)\n"),
    ("(rack (boards 4) (growth 9) (top 4))\n", "(bad 13 0)\n"),
    ("(rack (boards 4) (growth 260) (top 3))\n", "(bad 13 0)\n"),
    ("(rack (boards 4) (growth 4) (top 256))\n", "(bad 13 0)\n"),
    (
        "(rack (boards 256) (growth 4294967295) (top 4294967295))\n",
        "(bad 13 0)\n",
    ),
    (
        "(rack (boards 4) (growth 9) (top 3))\n(add (0 1) (draws 0))\n",
        "(bad 13 0)\n",
    ),
    (
        "(rack (boards 4) (growth 9) (top 3))\n(add (0 1) (draws 0)\n",
        "(bad 4 2)\n",
    ),
    ("(rack (boards 0) (growth 9) (top 3))\n", "(bad 5 0)\n"),
    ("(rack (boards 257) (growth 4) (top 4))\n", "(bad 5 0)\n"),
    (
        "(rack (boards 0) (growth 9) (top 4))\n(add (0 1) (draws 0))\n(",
        "(bad 4 3)\n",
    ),
];

pub fn long_lines(_: &mut Tally) -> Verdict {
    prints(WORKED, WORKED_RECORD)?;
    let long = |text: &str| text.replacen("4))", "4) (growth 4) (top 3))", 1);
    prints(&long(EXAMPLE), &long(EXAMPLE_RECORD))?;
    for (text, printed) in TURNED_BACK {
        prints(text, printed)?;
    }
    for line in NOT_FIRST {
        expect_bad(&format!("{line}\n"), 1)?;
        expect_bad(&format!("{line}\n(add (0 1) (draws 0 0))\n"), 1)?;
    }
    for growth in 2..=8 {
        for top in 0..=3 {
            at_settings(growth, top)?;
        }
    }
    at_short()?;
    let tried = 2 * NOT_FIRST.len();
    Ok(format!(
        "long lines of all settings, {} turned back, {tried} that don't fit: ok",
        TURNED_BACK.len()
    ))
}

fn prints(text: &str, wanted: &str) -> Result<(), String> {
    let printed = program(text.as_bytes());
    let printed = String::from_utf8_lossy(&printed);
    same(&format!("{text:?}"), printed.as_ref(), wanted)
}

/// A long line alone: the record repeats it, and the rack is that of making.
fn at_settings(growth: u32, top: u32) -> Result<(), String> {
    let line = format!("(rack (boards 7) (growth {growth}) (top {top}))\n");
    let mut made = vec![0; RACK_BYTES];
    make_with(&mut made, 7, growth, top);
    one_line(&line, &made)
}

/// The short line alone.
fn at_short() -> Result<(), String> {
    let mut made = vec![0; RACK_BYTES];
    make(&mut made, 7);
    one_line("(rack (boards 7))\n", &made)
}

fn one_line(line: &str, made: &[u8]) -> Result<(), String> {
    let (mut rack, mut record) = (vec![7; RACK_BYTES], vec![8; RECORD_SPACE]);
    let outcome = run(&mut rack, line.as_bytes(), &mut record);
    let wanted = format!("{line}(end (pairs 0) (mean 0 0))\n");
    let written = String::from_utf8_lossy(&record[..outcome.length]);
    same(line, written.as_ref(), wanted.as_str())?;
    same(line, &rack[..], made)
}
