//! What changes came to at each growth and top level. Every vertex that ends at another
//! level is noted, so that it shows if a rise or a fall between two levels was never
//! tried at some settings.

use crate::tally::Seen;
use crate::Verdict;
use reference::checks::settings::drawn_at;
use reference::{Rack, Settings};

/// Growth and top level.
type Two = (usize, i32);

pub struct BySettings {
    /// Accepted changes.
    changes: Seen<Two>,
    /// Vertices that ended at another level, with the levels before and after.
    risen: Seen<(Two, i32, i32)>,
    fallen: Seen<(Two, i32, i32)>,
    /// The highest count of all racks after them.
    highest_count: u8,
}

/// The growth and the top level of a rack.
fn two(settings: Settings) -> Two {
    (settings.growth, settings.top)
}

impl BySettings {
    pub fn new() -> BySettings {
        let (mut risen, mut fallen) = (Vec::new(), Vec::new());
        for settings in Settings::all() {
            let named = two(settings);
            for to in drawn_at(settings) {
                risen.extend((-1..to).map(|from| (named, from, to)));
            }
            for from in 0..=settings.top {
                fallen.extend((-1..from).map(|to| (named, from, to)));
            }
        }
        BySettings {
            changes: Seen::of("settings", Settings::all().map(two)),
            risen: Seen::of("rise", risen),
            fallen: Seen::of("fall", fallen),
            highest_count: 0,
        }
    }

    /// An accepted change.
    pub fn note(&mut self, before: &Rack, after: &Rack) {
        let named = two(before.settings);
        self.changes.note(named);
        for (&from, &to) in before.level.iter().zip(&after.level) {
            if from < to {
                self.risen.note((named, from, to));
            }
            if from > to {
                self.fallen.note((named, from, to));
            }
        }
    }

    /// The counts in the bytes of a rack.
    pub fn note_counts(&mut self, rack: &[u8]) {
        let highest = rack[776..1_800].iter().max();
        self.highest_count = self.highest_count.max(*highest.expect("some"));
    }

    pub fn add(&mut self, part: &BySettings) {
        self.highest_count = self.highest_count.max(part.highest_count);
        self.changes.add(&part.changes);
        self.risen.add(&part.risen);
        self.fallen.add(&part.fallen);
    }

    pub fn print(&self) {
        println!(
            "{} accepted changes at {} settings, {} or more at each; highest count {}",
            self.changes.sum(),
            self.changes.kinds(),
            self.changes.least(),
            self.highest_count
        );
        println!(
            "{} boards ended higher and {} lower, from and to {} and {} levels of these, {} and {} or \
             more of each",
            self.risen.sum(),
            self.fallen.sum(),
            self.risen.kinds(),
            self.fallen.kinds(),
            self.risen.least(),
            self.fallen.least()
        );
    }

    /// An error if something that can come never did.
    pub fn all_came(&self) -> Verdict {
        self.changes.all_came()?;
        self.risen.all_came()?;
        self.fallen.all_came()?;
        match self.highest_count {
            255 => Ok(()),
            _ => Err("never met: a count of 255".into()),
        }
    }
}
