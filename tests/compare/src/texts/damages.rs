//! Damage to a trace that fits, kind by kind.

use super::edits::*;
use super::trace::{Trace, STYLES};
use super::{Case, Family};
use reference::checks::random::Random;
use reference::TEXT_LIMIT;

/// What is done to a text.
type Damage = fn(&mut Random, &mut Vec<u8>);

/// Cases of each kind of damage.
const CASES: u64 = 300;

const DAMAGES: [(&str, Damage); 36] = [
    ("a doubled space", |r, t| doubled(r, t, b" ")),
    ("a missing space", |r, t| missing(r, t, b" ")),
    ("a space somewhere", |r, t| put_anywhere(r, t, b" ")),
    ("a doubled bracket", |r, t| doubled(r, t, b"()")),
    ("a missing bracket", |r, t| missing(r, t, b"()")),
    ("a turned bracket", |r, t| turned_bracket(r, t)),
    ("a leading zero", |r, t| before_number(r, t, b"0")),
    ("many leading zeros", |r, t| {
        before_number(r, t, &[b'0'; 40])
    }),
    ("a sign", |r, t| {
        let sign = r.pick(&[b"+", b"-"]);
        before_number(r, t, sign)
    }),
    ("a number just too high", |r, t| {
        let high = r.pick(&JUST_HIGH);
        in_place_of_number(r, t, high.as_bytes());
    }),
    ("a number that fits in 32 bits when cut", |r, t| {
        let high = r.pick(&CUT);
        in_place_of_number(r, t, high.as_bytes());
    }),
    ("a long string of digits", long_digits),
    ("a number in another form", |r, t| {
        let form = r.pick(&FORMS);
        in_place_of_number(r, t, form.as_bytes());
    }),
    ("a missing number", |r, t| in_place_of_number(r, t, b"")),
    ("129 words", |r, t| with_words(r, t, 129)),
    ("more than 129 words", |r, t| {
        let number = r.pick(&[130, 200, 256, 257, 384, 1_000]);
        with_words(r, t, number);
    }),
    ("a wrong word", wrong_word),
    ("a capital letter", |r, t| {
        change_one(r, t, u8::is_ascii_lowercase, |_, b| b - 32)
    }),
    ("a tab for a space", |r, t| {
        change_one(r, t, |&b| b == b' ', |_, _| b'\t')
    }),
    ("another white byte", |r, t| {
        let white = r.pick(&[9, 11, 12, 13, 28, 31, 133, 160]);
        put_anywhere(r, t, &[white]);
    }),
    ("carriage returns", |r, t| line_ends(r, t, b"\r\n")),
    ("line feeds before carriage returns", |r, t| {
        line_ends(r, t, b"\n\r")
    }),
    ("carriage returns alone", |r, t| line_ends(r, t, b"\r")),
    ("a missing last line feed", |_, t| _ = t.pop()),
    ("a missing line feed", |r, t| missing(r, t, b"\n")),
    ("an empty line", |r, t| doubled(r, t, b"\n")),
    ("an empty first line", |_, t| t.insert(0, b'\n')),
    ("text after the end", after_end),
    ("a byte above 127", |r, t| {
        change_one(r, t, |_| true, |_, b| b | 128)
    }),
    ("a byte above 127 put in", |r, t| {
        let high = [r.between(128, 255) as u8];
        put_anywhere(r, t, &high);
    }),
    ("a zero byte", |r, t| change_one(r, t, |_| true, |_, _| 0)),
    ("a zero byte put in", |r, t| put_anywhere(r, t, b"\0")),
    ("a mark before the text", |_, t| {
        _ = t.splice(0..0, *b"\xef\xbb\xbf");
    }),
    ("a line at another place", moved_line),
    ("a second rack line", |r, t| {
        let lines = [
            "(rack (boards 4))\n",
            "(rack (boards 4) (growth 4) (top 3))\n",
        ];
        let line = r.pick(&lines);
        put_line(r, t, line.as_bytes())
    }),
    ("a piece cut off", |r, t| {
        let length = r.below(t.len());
        t.truncate(length);
    }),
];

const JUST_HIGH: [&str; 6] = [
    "4294967296",
    "4294967297",
    "4294967300",
    "4300000000",
    "9999999999",
    "10000000000",
];

/// Numbers whose remainder at 2^32, 2^64 or 2^128 is small.
const CUT: [&str; 6] = [
    "4294967298",
    "8589934593",
    "42949672961",
    "18446744073709551616",
    "18446744073709551619",
    "340282366920938463463374607431768211458",
];

const FORMS: [&str; 10] = [
    "0x1", "1.0", "1e0", "1_0", "1,0", "1 0", "one", "1a", "/", ":",
];

pub fn families() -> Vec<Family> {
    let each = |(name, damage): (&str, Damage)| {
        Family::new(name, CASES, &[4], move |seed| damaged(seed, damage))
    };
    let mut all: Vec<Family> = DAMAGES.into_iter().map(each).collect();
    let several = |seed| {
        let mut random = Random::new(0x3800_0000 + seed);
        let mut text = base(&mut random);
        for _ in 0..random.between(2, 5) {
            let (_, damage) = random.pick(&DAMAGES);
            damage(&mut random, &mut text);
            if text.is_empty() {
                text.push(b'(');
            }
        }
        Case::of(text)
    };
    all.push(Family::new("damage of several kinds", 6_000, &[4], several));
    all
}

fn damaged(seed: u64, damage: Damage) -> Case {
    let mut random = Random::new(0x3000_0000 + seed);
    let mut text = base(&mut random);
    damage(&mut random, &mut text);
    Case::of(text)
}

/// A trace that fits: mostly short, at times near the limit.
fn base(random: &mut Random) -> Vec<u8> {
    let limit = match random.below(50) {
        0 => TEXT_LIMIT - 2,
        1..=5 => 4_000,
        _ => random.between(60, 600),
    };
    let n = random.between(1, 12);
    let style = random.pick(&STYLES);
    let mut trace = Trace::start_any(random, n, limit);
    trace.change(1, 0, n - 1, &vec![7; n / 2]);
    while trace.any(random, style, 70).is_some() {}
    trace.text.into_bytes()
}
