//! Line 1 in its long form: settings in and around their ranges, and the line damaged
//! in every way.

use super::lines::table;
use super::trace::long_line;
use super::{Case, Family};

/// The long line, and lines after it.
const LONG: &[u8] = b"(rack (boards 4) (growth 4) (top 3))";
const REST: &[u8] = b"\n(add (0 1) (draws 7))\n(drop (0 1) (draws))\n";

/// Numbers on line 1: around their ranges, such as would be in range if they were cut to
/// a byte or two, and the highest that is one.
const BOARDS: [u32; 6] = [0, 1, 4, 256, 257, u32::MAX];
const GROWTHS: [u32; 20] = [
    0,
    1,
    2,
    3,
    4,
    5,
    6,
    7,
    8,
    9,
    10,
    11,
    12,
    16,
    255,
    256,
    258,
    260,
    65_540,
    u32::MAX,
];
const TOPS: [u32; 13] = [0, 1, 2, 3, 4, 5, 6, 8, 255, 256, 259, 65_536, u32::MAX];

/// What may stand in the place of a number, and mostly is none.
const FORMS: [&str; 28] = [
    "",
    "0",
    "1",
    "2",
    "3",
    "9",
    "00",
    "04",
    "03",
    " 4",
    "4 ",
    "+4",
    "-4",
    "4.",
    "0x4",
    "4a",
    "/",
    ":",
    "four",
    "4 4",
    "4)(",
    "4) (boards 4",
    "4294967295",
    "4294967296",
    "4294967300",
    "42949672960",
    "18446744073709551620",
    "340282366920938463463374607431768211460",
];

/// Parts of line 1, to be put one after the other in every order.
const PARTS: [&str; 3] = [" (boards 4)", " (growth 4)", " (top 3)"];

/// Lines that don't fit by a hair, and some that fit.
const LINES: [&str; 31] = [
    "(rack (boards 4) (growth 2) (top 0))",
    "(rack (boards 256) (growth 8) (top 3))",
    "(rack (boards 4) (growth 9) (top 3))",
    "(rack (boards 4) (growth 4) (top 4))",
    "(rack (boards 0) (growth 1) (top 9))",
    "(rack (boards 4) (growth 4))",
    "(rack (boards 4) (top 3))",
    "(rack (growth 4) (top 3))",
    "(rack (boards 4) (top 3) (growth 4))",
    "(rack (boards 4)) (growth 4) (top 3)",
    "(rack (boards 4) (growth 4) (top 3) )",
    "(rack (boards 4) (growth 4) (top 3)) ",
    " (rack (boards 4) (growth 4) (top 3))",
    "(rack (boards 4)  (growth 4) (top 3))",
    "(rack (boards 4) (growth  4) (top 3))",
    "(rack (boards 4)(growth 4) (top 3))",
    "(rack (boards 4) (growth 4)(top 3))",
    "(rack (boards 4) (growth4) (top 3))",
    "(rack (boards 4) (growth 4) (top3))",
    "(rack (boards 4 (growth 4) (top 3)))",
    "(rack (boards 4) ((growth 4) (top 3)))",
    "(rack (boards 4) (growth 4 (top 3)))",
    "(rack (boards 4) (growth 4 3))",
    "(rack (boards 4) (settings 4 3))",
    "(rack (boards 4) (Growth 4) (top 3))",
    "(rack (boards 4) (growth 4) (Top 3))",
    "(rack (boards 4) (growth 4) (top 3))\r",
    "(rack\t(boards 4) (growth 4) (top 3))",
    "(add (boards 4) (growth 4) (top 3))",
    "(rack (boards 4) (growth 4) (top 3)) (draws)",
    "(rack (boards 4) (growth 4) (top 3) (growth 4) (top 3))",
];

pub fn families() -> Vec<Family> {
    let mut all = vec![
        table("settings around their ranges", &[0, 4, 5, 13], around()),
        table("numbers of line 1 in other forms", &[0, 4, 5, 13], forms()),
        table("parts of line 1 in every order", &[0, 4], orders()),
        table(
            "long lines on the edge of the grammar",
            &[0, 4, 5, 13],
            edges(),
        ),
        table("a long line cut at every byte", &[0, 4], cuts()),
    ];
    all.extend(KINDS.map(|(name, cases, meets, make)| {
        let name = format!("long line: {name}");
        Family::new(&name, cases as u64, meets, move |k| make(k as usize))
    }));
    all
}

/// All settings of the lists: alone, before changes, and before a line that doesn't fit.
fn around() -> Vec<Vec<u8>> {
    let mut texts = Vec::new();
    for n in BOARDS {
        for growth in GROWTHS {
            for top in TOPS {
                let rests: [&[u8]; 3] = [b"", &REST[1..], b"(add (0 1) (draws 7)\n"];
                let rest = rests[texts.len() % 3];
                texts.push([long_line(n, growth, top).as_bytes(), rest].concat());
            }
        }
    }
    texts
}

/// Another form in each of the three places.
fn forms() -> Vec<Vec<u8>> {
    let mut texts = Vec::new();
    for form in FORMS {
        for place in 0..3 {
            let number = |of: usize, usual| if of == place { form } else { usual };
            let [n, growth, top] = [number(0, "4"), number(1, "4"), number(2, "3")];
            let line = format!("(rack (boards {n}) (growth {growth}) (top {top}))");
            texts.push([line.as_bytes(), REST].concat());
        }
    }
    texts
}

/// Up to four parts: two of these lines fit.
fn orders() -> Vec<Vec<u8>> {
    let mut lines = vec![String::new()];
    let mut first = 0;
    for _ in 0..4 {
        let last = lines.len();
        for shorter in first..last {
            lines.extend(PARTS.map(|part| lines[shorter].clone() + part));
        }
        first = last;
    }
    let text = |parts: &String| [b"(rack", parts.as_bytes(), b")", REST].concat();
    lines.iter().map(text).collect()
}

/// Each line with and without changes after it, without its line feed, and as line 2.
fn edges() -> Vec<Vec<u8>> {
    let mut texts = Vec::new();
    for line in LINES.map(str::as_bytes) {
        texts.push([line, REST].concat());
        texts.push([line, b"\n"].concat());
        texts.push([line, b"\n("].concat());
        texts.push(line.to_vec());
        texts.push([b"(rack (boards 4))\n", line, b"\n"].concat());
        texts.push([LONG, b"\n", line, REST].concat());
    }
    texts
}

/// The first bytes of the line, and what could make a line of them.
fn cuts() -> Vec<Vec<u8>> {
    let ends: [&[u8]; 6] = [b"", b"\n", b")\n", b"))\n", b" 3))\n", REST];
    let cut = |length: usize| ends.map(|end| [&LONG[..length], end].concat());
    (0..=LONG.len()).flat_map(cut).collect()
}

/// The long line altered, with lines after it.
fn altered(alter: impl Fn(&mut Vec<u8>)) -> Case {
    let mut line = LONG.to_vec();
    alter(&mut line);
    Case::of([&line, REST].concat())
}

/// A kind of alteration, its cases, the numbers that it meets, and the case at a place.
type Kind = (&'static str, usize, &'static [u32], fn(usize) -> Case);

/// How many bytes the long line has.
const PLACES: usize = LONG.len();

/// Two places of the long line, the lower first.
fn two(k: usize) -> (usize, usize) {
    let (one, other) = (k / PLACES, k % PLACES);
    (one.min(other), one.max(other))
}

/// All that can be done to a byte of the line, or to two.
const KINDS: [Kind; 7] = [
    ("every byte replaced", 256 * PLACES, &[0, 4, 5, 13], |k| {
        altered(|line| line[k / 256] = k as u8)
    }),
    ("every byte put in", 256 * (PLACES + 1), &[0, 4, 13], |k| {
        altered(|line| line.insert(k / 256, k as u8))
    }),
    ("every byte taken out", PLACES, &[4], |k| {
        altered(|line| _ = line.remove(k))
    }),
    ("every byte doubled", PLACES, &[0, 4, 13], |k| {
        altered(|line| line.insert(k, line[k]))
    }),
    ("every piece taken out", PLACES * PLACES, &[0, 4], |k| {
        altered(|line| _ = line.drain(two(k).0..two(k).1))
    }),
    ("every piece doubled", PLACES * PLACES, &[0, 4, 13], |k| {
        let (start, end) = two(k);
        altered(|line| _ = line.splice(start..start, LONG[start..end].iter().copied()))
    }),
    ("every two bytes exchanged", PLACES * PLACES, &[0, 4], |k| {
        altered(|line| line.swap(two(k).0, two(k).1))
    }),
];
