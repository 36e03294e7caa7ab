//! Making, by the short form and with settings.

use crate::both;
use crate::rack_part::{noise, wrong_buffers};
use crate::tally::Seen;
use crate::Verdict;
use reference::RACK_BYTES;

/// Numbers of vertices around their limits, and far beyond; growths and top levels
/// from below their least to above their most, and such as would be in range if they
/// were cut to a byte or two.
const VERTICES: [u32; 14] = [
    0,
    1,
    2,
    3,
    128,
    254,
    255,
    256,
    257,
    258,
    512,
    65_537,
    1 << 31,
    u32::MAX,
];
const GROWTHS: [u32; 21] = [
    0,
    1,
    2,
    3,
    4,
    5,
    6,
    7,
    8,
    9,
    10,
    16,
    127,
    128,
    255,
    256,
    258,
    264,
    65_540,
    1 << 31,
    u32::MAX,
];
const TOPS: [u32; 14] = [
    0,
    1,
    2,
    3,
    4,
    5,
    7,
    128,
    255,
    256,
    259,
    65_537,
    1 << 31,
    u32::MAX,
];

/// What makings came to.
struct Tally {
    numbers: Seen<u32>,
    /// Settings of racks that were made.
    settings: Seen<(u32, u32)>,
    /// Makings that meet two numbers or three at once, the first first.
    at_once: Seen<(u32, u32)>,
}

pub fn all() -> Verdict {
    short()?;
    let pairs = (2..=8).flat_map(|growth| (0..=3).map(move |top| (growth, top)));
    let mut tally = Tally {
        numbers: Seen::of("number", [0, 1, 5, 13]),
        settings: Seen::of("settings", pairs),
        at_once: Seen::of("at once", [(1, 5), (1, 13), (5, 13)]),
    };
    for n in VERTICES {
        tally.settings_of(&noise(RACK_BYTES, u64::from(n)), n)?;
    }
    for buffer in wrong_buffers() {
        for n in [0, 5, 257] {
            tally.settings_of(&buffer, n)?;
        }
    }
    tally.print();
    tally.numbers.all_came()?;
    tally.settings.all_came()?;
    tally.at_once.all_came()
}

/// The short form.
fn short() -> Verdict {
    let mut numbers = Seen::of("number", [0, 1, 5]);
    let beyond = [1 << 9, 65_535, 65_536, 65_537, 1 << 31, u32::MAX];
    for n in (0..=300).chain(beyond) {
        numbers.note(both::make(&noise(RACK_BYTES, u64::from(n)), n)?);
    }
    for buffer in wrong_buffers() {
        for n in [0, 1, 5, 256, 257] {
            numbers.note(both::make(&buffer, n)?);
        }
    }
    println!("making: {numbers}: equal");
    numbers.all_came()
}

impl Tally {
    /// Making in one buffer with all settings of the lists.
    fn settings_of(&mut self, buffer: &[u8], n: u32) -> Verdict {
        for growth in GROWTHS {
            for top in TOPS {
                let number = both::make_with(buffer, n, growth, top)?;
                self.numbers.note(number);
                if number == 0 {
                    self.settings.note((growth, top));
                }
                self.note_met(buffer.len(), n, growth, top);
            }
        }
        Ok(())
    }

    /// The numbers that a making meets, each looked at by itself.
    fn note_met(&mut self, length: usize, n: u32, growth: u32, top: u32) {
        let met = [
            (1, length != RACK_BYTES),
            (5, n == 0 || n > 256),
            (13, !(2..=8).contains(&growth) || top > 3),
        ];
        let met: Vec<u32> = met.iter().filter(|one| one.1).map(|one| one.0).collect();
        for (place, &lower) in met.iter().enumerate() {
            for &higher in &met[place + 1..] {
                self.at_once.note((lower, higher));
            }
        }
    }

    fn print(&self) {
        println!(
            "making with settings: {}; {} settings made, {} times or more each; two numbers {}: equal",
            self.numbers,
            self.settings.kinds(),
            self.settings.least(),
            self.at_once
        );
    }
}
