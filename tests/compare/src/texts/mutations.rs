//! Single bytes replaced, put in and taken out: all of them in one short text,
//! and many in traces of all sizes.

use super::trace::{Trace, STYLES};
use super::{Case, Family};
use reference::checks::random::Random;
use reference::TEXT_LIMIT;

/// The text in which every byte is replaced by every other, and before which
/// every byte is put in.
const SHORT: &[u8] =
    b"(rack (boards 4))\n(add (0 1) (draws 10 4294967295))\n(drop (1 0) (draws 9 0))\n";

/// What is done to a text at a place, with a byte to put there.
type Alter = fn(&mut Random, &mut Vec<u8>, usize, u8);

pub fn families() -> Vec<Family> {
    let mut all = of_short();
    let alterations: [(&str, u64, Alter); 4] = [
        ("a byte replaced", 12_000, |_, text, at, byte| {
            text[at] = byte
        }),
        ("a byte put in", 12_000, |_, text, at, byte| {
            text.insert(at, byte)
        }),
        ("a byte taken out", 12_000, |_, text, at, _| {
            _ = text.remove(at)
        }),
        ("two bytes exchanged", 4_000, |random, text, at, _| {
            let other = (at + random.below(12)).min(text.len() - 1);
            text.swap(at, other);
        }),
    ];
    for (name, cases, alter) in alterations {
        let make = move |k| mutated(k, alter);
        all.push(Family::new(name, cases, &[0, 4], make));
    }
    all
}

/// All that can be done to the short text.
fn of_short() -> Vec<Family> {
    let places = SHORT.len();
    let bytes = 256 * places as u64;
    let pieces = (places * places) as u64;
    let short = |alter: &dyn Fn(&mut Vec<u8>)| {
        let mut text = SHORT.to_vec();
        alter(&mut text);
        Case::of(text)
    };
    vec![
        Family::new("every byte replaced", bytes, &[0, 4, 5], move |k| {
            short(&|text| text[k as usize / 256] = k as u8)
        }),
        Family::new("every byte put in", bytes + 256, &[0, 4], move |k| {
            short(&|text| text.insert(k as usize / 256, k as u8))
        }),
        Family::new("every byte taken out", places as u64, &[0, 4], move |k| {
            short(&|text| _ = text.remove(k as usize))
        }),
        Family::new("every piece taken out", pieces, &[0, 4], move |k| {
            let (one, other) = (k as usize / places, k as usize % places);
            short(&|text| _ = text.drain(one.min(other)..one.max(other)))
        }),
    ]
}

/// A trace that fits with one byte altered. Twelve cases share a trace.
fn mutated(k: u64, alter: Alter) -> Case {
    let mut text = base(k / 12);
    let mut random = Random::new(0x4000_0000 + k);
    let byte = match random.below(4) {
        0 => random.bits() as u8,
        _ => random.pick(b"()0123456789 adroprawsckbgth\n"),
    };
    let at = random.below(text.len());
    alter(&mut random, &mut text, at, byte);
    Case::of(text)
}

fn base(seed: u64) -> Vec<u8> {
    let mut random = Random::new(0x4100_0000 + seed);
    let limit = match random.below(40) {
        0 => TEXT_LIMIT,
        1..=4 => 3_000,
        _ => random.between(40, 500),
    };
    let n = random.between(1, 14);
    let style = random.pick(&STYLES);
    let mut trace = Trace::start_any(&mut random, n, limit);
    while trace.any(&mut random, style, 65).is_some() {}
    trace.text.into_bytes()
}
