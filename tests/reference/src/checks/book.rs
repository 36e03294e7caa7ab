//! The link book: "kept from what the changes bring and looks at no rack but
//! the first."

use std::collections::BTreeSet;

/// "It holds n and a set of links". A link stands as lower and higher board:
/// "A-B and B-A are one link."
#[derive(Clone, Debug, PartialEq, Eq)]
pub struct Book {
    pub n: u32,
    pub links: BTreeSet<(u32, u32)>,
}

impl Book {
    /// "both taken from the first rack"
    pub fn open(first: &[u8]) -> Book {
        Book {
            n: u32::from(first[0]) | u32::from(first[1]) << 8,
            links: links_in(first),
        }
    }

    pub fn has(&self, a: u32, b: u32) -> bool {
        self.links.contains(&(a.min(b), a.max(b)))
    }

    /// "For each change it goes through 7 to 12 in order; "there" means in its
    /// set. The first that fits is the change's number". 12 it is told: "The link
    /// book, which holds no levels, is told of each change that 7 to 11 don't fit
    /// whether the change as defined, on the rack before it, runs out of words; it
    /// isn't told the core's answer." (document 02, W-206)
    pub fn number_of(&self, code: u32, a: u32, b: u32, runs_out: impl Fn() -> bool) -> u32 {
        let fits = [
            (7, code == 0 || code > 2),
            (8, a >= self.n || b >= self.n),
            (9, a == b),
            (10, code == 1 && self.has(a, b)),
            (11, code == 2 && !self.has(a, b)),
        ];
        match fits.iter().find(|(_, fits)| *fits) {
            Some((number, _)) => *number,
            None if runs_out() => 12,
            None => 0,
        }
    }

    /// Writes a change into the book and gives its number: "an add puts its
    /// link in, a drop takes it out."
    pub fn note(&mut self, code: u32, a: u32, b: u32, runs_out: impl Fn() -> bool) -> u32 {
        let number = self.number_of(code, a, b, runs_out);
        let link = (a.min(b), a.max(b));
        if number == 0 && code == 1 {
            self.links.insert(link);
        }
        if number == 0 && code == 2 {
            self.links.remove(&link);
        }
        number
    }
}

/// "v-w is a link if bit w of row v or bit v of row w is set." Gone through by
/// the bits that are set.
pub fn links_in(rack: &[u8]) -> BTreeSet<(u32, u32)> {
    let mut links = BTreeSet::new();
    let bytes = rack[1800..9_992].iter().enumerate();
    for (at, byte) in bytes.filter(|(_, byte)| **byte != 0) {
        for bit in 0..8 {
            if byte & (1 << bit) != 0 {
                let v = (at / 32) as u32;
                let w = (at % 32 * 8 + bit) as u32;
                links.insert((v.min(w), v.max(w)));
            }
        }
    }
    links
}
