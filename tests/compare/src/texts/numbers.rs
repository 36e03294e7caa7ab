//! Numbers 1 to 5 and 13: buffers of other lengths, board numbers that are none,
//! settings out of range, and texts that meet two or more numbers at once, of which
//! the first is the one.

use super::lengths::exact;
use super::trace::{long_line, rack_line};
use super::{Case, Family};
use reference::{RACK_BYTES, RECORD_SPACE, TEXT_LIMIT};

/// The length of a rack, and others: among them the one before the rosters.
const RACKS: [usize; 12] = [
    RACK_BYTES, 0, 1, 264, 9_991, 9_992, 9_993, 10_151, 10_153, 10_312, 20_304, 65_536,
];
const SPACES: [usize; 9] = [
    RECORD_SPACE,
    0,
    1,
    16_384,
    65_535,
    65_537,
    65_600,
    98_304,
    131_072,
];

/// Board numbers, in the first line of a text.
const BOARDS: [u32; 12] = [
    0,
    1,
    2,
    255,
    256,
    257,
    258,
    512,
    65_536,
    65_537,
    1 << 31,
    u32::MAX,
];

pub fn families() -> Vec<Family> {
    let grid = grid();
    let boards = boards();
    let all = (RACKS.len() * SPACES.len() * grid.len()) as u64;
    let meets = &[0, 1, 2, 3, 4, 5, 13];
    let at_once = Family::new("numbers at once", all, meets, move |k| {
        let k = k as usize;
        let (racks, spaces) = (RACKS.len(), SPACES.len());
        Case {
            rack: RACKS[k % racks],
            space: SPACES[k / racks % spaces],
            ..Case::of(&grid[k / racks / spaces][..])
        }
    });
    let named = boards.len() as u64;
    vec![
        at_once,
        Family::new("other board numbers", named, &[0, 4, 5], move |k| {
            Case::of(&boards[k as usize][..])
        }),
        Family::new("every board number to 300", 301, &[0, 5], |n| {
            Case::of(rack_line(n as u32) + "(add (0 1) (draws 7))\n(add (255 0) (draws))\n")
        }),
        Family::new("longer record spaces", 200, &[0], |k| Case {
            space: RECORD_SPACE + 1 + k as usize * 37,
            ..Case::of(exact(k, 16 * (k as usize + 40)))
        }),
    ]
}

/// Texts that fit, are too long, don't fit, or name no board number or settings out of
/// range, and two or more of these at once.
fn grid() -> Vec<Vec<u8>> {
    let fits = exact(1, 300);
    let too_long = exact(2, TEXT_LIMIT + 1);
    let full = exact(3, TEXT_LIMIT);
    let noise: Vec<u8> = (0..TEXT_LIMIT + 1).map(|at| (at * at) as u8).collect();
    let long_of_none = named(&rack_line(0), &too_long);
    let mut bad = fits.clone();
    bad.push(b'(');
    vec![
        named(&rack_line(0), &fits),
        named(&rack_line(257), &bad),
        named(&rack_line(u32::MAX), &fits),
        named(&long_line(4, 2, 1), &fits),
        named(&long_line(4, 9, 3), &fits),
        named(&long_line(4, 4, 4), &bad),
        named(&long_line(0, 1, 0), &fits),
        named(&long_line(257, 4, 3), &fits),
        named(&long_line(0, 9, 4), &bad),
        named(&long_line(0, 9, 4), &too_long),
        Vec::new(),
        fits,
        too_long,
        full,
        noise,
        long_of_none,
        bad,
        vec![b'\n'; TEXT_LIMIT],
        vec![b'\n'; TEXT_LIMIT + 1],
    ]
}

/// A text with another first line.
fn named(first: &str, text: &[u8]) -> Vec<u8> {
    let mut lines = text.splitn(2, |&byte| byte == b'\n');
    let rest = lines.nth(1).unwrap_or(b"");
    [first.as_bytes(), rest].concat()
}

/// Board numbers alone, before changes, and before a line that doesn't fit.
fn boards() -> Vec<Vec<u8>> {
    let mut texts = Vec::new();
    for n in BOARDS {
        let first = rack_line(n);
        let words = " 4294967295".repeat(128);
        for rest in [
            "",
            "(add (0 1) (draws 0 0))\n",
            "(add (0 1) (draws 0 0))\n(",
            &format!("(add (0 1) (draws{words}))\n"),
            &format!("(add (0 1) (draws{words} 1))\n"),
        ] {
            texts.push([first.as_bytes(), rest.as_bytes()].concat());
        }
    }
    texts
}
