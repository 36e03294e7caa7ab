//! The first lines of the texts that were run, and what was reached at their settings.

use crate::tally::Seen;
use crate::Verdict;
use reference::checks::settings::drawn_at;
use reference::grammar::First;
use reference::Settings;

/// How line 1 was given.
#[derive(Clone, Copy, Debug, PartialEq, Eq, PartialOrd, Ord)]
enum Form {
    Short,
    LongWith4And3,
    Long,
}

/// Growth and top level.
type Two = (u32, u32);

pub struct FirstLines {
    forms: Seen<Form>,
    /// Settings of runs, and the highest level that a board came to at them.
    settings: Seen<Two>,
    tops: Seen<(Two, i32)>,
    /// Pairs at the end by settings and level.
    pairs: Seen<(Two, i32)>,
}

impl FirstLines {
    pub fn new() -> FirstLines {
        use Form::*;
        let named = |one: Settings| (one.growth as u32, one.top as u32);
        let of_level = |one| drawn_at(one).map(move |level| (named(one), level));
        FirstLines {
            forms: Seen::of("line 1", [Short, LongWith4And3, Long]),
            settings: Seen::of("settings", Settings::all().map(named)),
            tops: Seen::of("highest level", Settings::all().flat_map(of_level)),
            pairs: Seen::of("pair", Settings::all().flat_map(of_level)),
        }
    }

    /// Line 1 of a text that was run, the highest level that a board came to, if that
    /// is known, and the levels of the pairs at the end.
    pub fn note(&mut self, first: &First, top: i32, pairs: impl Iterator<Item = i32>) {
        let (form, named) = match first.settings {
            None => (Form::Short, (4, 3)),
            Some((4, 3)) => (Form::LongWith4And3, (4, 3)),
            Some(named) => (Form::Long, named),
        };
        self.forms.note(form);
        self.settings.note(named);
        if top >= 0 {
            self.tops.note((named, top));
        }
        for level in pairs {
            self.pairs.note((named, level));
        }
    }

    pub fn print(&self) {
        println!(
            "runs by {}; {} settings, {} times or more each",
            self.forms,
            self.settings.kinds(),
            self.settings.least()
        );
        println!(
            "each of {} levels of all settings was the highest in {} runs or more, and had {} pairs \
             or more at the end",
            self.tops.kinds(),
            self.tops.least(),
            self.pairs.least()
        );
    }

    /// An error if something that can come never did.
    pub fn all_came(&self) -> Verdict {
        self.forms.all_came()?;
        self.settings.all_came()?;
        self.tops.all_came()?;
        self.pairs.all_came()
    }
}
