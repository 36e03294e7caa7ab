//! Strings of random bytes, of the grammar's letters, and of its pieces.

use super::trace::{long_line, rack_line};
use super::{Case, Family};
use reference::checks::random::Random;
use reference::TEXT_LIMIT;

/// Pieces of the grammar.
const PIECES: [&str; 26] = [
    "(rack",
    " (boards ",
    "(rack (boards ",
    ") (growth ",
    " (growth 4)",
    ") (top ",
    " (top 3)",
    "))\n",
    ")",
    "(",
    " ",
    "\n",
    "(add (",
    "(drop (",
    "add",
    ") (draws",
    "(draws",
    " 0",
    "0",
    "7",
    "10",
    "4294967295",
    "4294967296",
    "(add (0 1) (draws 1))\n",
    "(drop (0 1) (draws",
    ") (draws))\n",
];

pub fn families() -> Vec<Family> {
    vec![
        Family::new("random bytes", 2_000, &[2, 4], |k| {
            let mut random = Random::new(0x5000_0000 + k);
            let length = length(&mut random);
            let bytes = (0..length).map(|_| random.bits() as u8);
            Case::of(bytes.collect::<Vec<u8>>())
        }),
        Family::new("random bytes after a rack line", 2_000, &[4], |k| {
            let mut random = Random::new(0x5100_0000 + k);
            let length = random.between(1, 60);
            let bytes = (0..length).map(|_| random.bits() as u8);
            Case::of(
                rack_line(4)
                    .into_bytes()
                    .into_iter()
                    .chain(bytes)
                    .collect::<Vec<u8>>(),
            )
        }),
        Family::new("random letters of the grammar", 3_000, &[2, 4], |k| {
            let mut random = Random::new(0x5200_0000 + k);
            let length = length(&mut random);
            let letters = (0..length).map(|_| random.pick(b"()0123456789 adroprawsckbgth\n"));
            Case::of(letters.collect::<Vec<u8>>())
        }),
        Family::new(
            "random pieces of the grammar",
            20_000,
            &[0, 4, 5, 13],
            pieces,
        ),
    ]
}

fn length(random: &mut Random) -> usize {
    match random.below(20) {
        0 => random.between(0, TEXT_LIMIT + 300),
        1 => random.pick(&[TEXT_LIMIT, TEXT_LIMIT + 1]),
        _ => random.below(200),
    }
}

/// Pieces in any order, mostly after a rack line, at times in an order that may
/// fit.
fn pieces(seed: u64) -> Case {
    let mut random = Random::new(0x5300_0000 + seed);
    let mut text = match random.below(10) {
        0 => String::new(),
        1 => String::from("(rack (boards 0"),
        2 => String::from("(rack (boards 3) (growth 4"),
        3 | 4 => any_long(&mut random),
        _ => rack_line(random.pick(&[0, 1, 2, 3, 257])),
    };
    for _ in 0..random.below(8) {
        match random.below(3) {
            0 => text += random.pick(&PIECES),
            _ => text += &line(&mut random),
        }
    }
    Case::of(text)
}

/// A long line, at times with a number outside its range.
fn any_long(random: &mut Random) -> String {
    let n = random.pick(&[0, 1, 2, 3, 3, 3, 257]);
    let growth = random.pick(&[1, 2, 3, 4, 4, 5, 8, 9]);
    long_line(n, growth, random.pick(&[0, 1, 2, 3, 3, 3, 4]))
}

/// A change line piece by piece, each of which is at times another.
fn line(random: &mut Random) -> String {
    let piece = |usual: &str| match random.below(40) {
        0 => random.pick(&PIECES).to_string(),
        _ => usual.to_string(),
    };
    let parts = ["(add (", "0", " ", "1", ") (draws", " 5", " 12", "))\n"];
    parts.map(piece).concat()
}
