//! The rack bytes: "offsets decimal, numbers low byte first." Of document 01
//! they are 9,992; "The rack gains at offset 9,992 five rosters of 32 bytes, for
//! levels -1 to 3" (document 02, W-205).

use crate::rack::{Rack, Settings, HIGHEST, LOWEST};
use crate::sound::sound;

/// The length of a rack buffer: "Its length becomes 10,152" (W-205).
pub const RACK_BYTES: usize = 10_152;

/// The places for boards in the bytes, used or not.
pub const PLACES: usize = 256;

/// The mate number of an idle board.
pub const IDLE: u32 = 65_535;

const BOARDS_AT: usize = 0;
const LINKS_AT: usize = 2;
const GROWTH_AT: usize = 4;
const TOP_AT: usize = 5;
const LEVELS_AT: usize = 8;
const MATES_AT: usize = 264;
const COUNTS_AT: usize = 776;
const ROWS_AT: usize = 1_800;
const ROSTERS_AT: usize = 9_992;

fn two_bytes(bytes: &[u8], at: usize) -> u32 {
    u32::from(bytes[at]) + 256 * u32::from(bytes[at + 1])
}

fn put_two_bytes(bytes: &mut [u8], at: usize, number: usize) {
    assert!(number < 65_536, "a number of two bytes");
    bytes[at] = (number % 256) as u8;
    bytes[at + 1] = (number / 256) as u8;
}

/// "0: n, two bytes."
pub fn boards(bytes: &[u8]) -> usize {
    two_bytes(bytes, BOARDS_AT) as usize
}

/// "2: number of links, two bytes."
pub fn link_number(bytes: &[u8]) -> usize {
    two_bytes(bytes, LINKS_AT) as usize
}

/// "kept in bytes 4 (g) and 5 (t)" (document 02, W-207); none if a setting is
/// outside its range.
pub fn settings(bytes: &[u8]) -> Option<Settings> {
    Settings::of(u32::from(bytes[GROWTH_AT]), u32::from(bytes[TOP_AT]))
}

/// "6 and 7 stay zero" (W-207).
pub fn spare(bytes: &[u8]) -> &[u8] {
    &bytes[6..8]
}

/// "8: one byte a board, level plus 1."
pub fn level_byte(bytes: &[u8], v: usize) -> u8 {
    bytes[LEVELS_AT + v]
}

/// "264: two bytes a board, the mate, 65,535 if idle."
pub fn mate_number(bytes: &[u8], v: usize) -> u32 {
    two_bytes(bytes, MATES_AT + 2 * v)
}

/// "776: four bytes a board, its counts at 0, 1, 2, 3."
pub fn counts(bytes: &[u8], v: usize) -> &[u8] {
    &bytes[COUNTS_AT + 4 * v..COUNTS_AT + 4 * v + 4]
}

/// "1,800: 32 bytes a board, its row."
pub fn row(bytes: &[u8], v: usize) -> &[u8] {
    &bytes[ROWS_AT + 32 * v..ROWS_AT + 32 * v + 32]
}

/// "Bit w mod 8 (bit 0 lowest) of byte w div 8 in row v is set if v owns the
/// link v-w."
pub fn owns(bytes: &[u8], v: usize, w: usize) -> bool {
    has_bit(row(bytes, v), w)
}

/// "five rosters of 32 bytes, for levels -1 to 3" (document 02, W-205); this is
/// where that of a level starts.
fn roster_at(level: i32) -> usize {
    ROSTERS_AT + 32 * (level - LOWEST) as usize
}

/// Whether v is in the roster of a level, "with a board's bit laid out as in a
/// row" (W-205).
pub fn in_roster(bytes: &[u8], level: i32, v: usize) -> bool {
    has_bit(&bytes[roster_at(level)..roster_at(level) + 32], v)
}

/// Bit w of a row or a roster.
fn has_bit(field: &[u8], w: usize) -> bool {
    (field[w / 8] >> (w % 8)) % 2 == 1
}

impl Rack {
    /// The 10,152 bytes of this rack, with the link number, all counts and the
    /// rosters worked out from their definitions.
    pub fn to_bytes(&self) -> Vec<u8> {
        let mut bytes = vec![0; RACK_BYTES];
        put_two_bytes(&mut bytes, BOARDS_AT, self.n);
        put_two_bytes(&mut bytes, LINKS_AT, self.link_number());
        bytes[GROWTH_AT] = self.settings.growth as u8;
        bytes[TOP_AT] = self.settings.top as u8;
        // "Entries of boards n to 255 are level byte 0, mate 65,535, counts 0,
        // empty row, and no row names them."
        for v in 0..PLACES {
            put_two_bytes(&mut bytes, MATES_AT + 2 * v, IDLE as usize);
        }
        for v in 0..self.n {
            self.put_board(&mut bytes, v);
        }
        bytes
    }

    fn put_board(&self, bytes: &mut [u8], v: usize) {
        bytes[LEVELS_AT + v] = (self.level[v] + 1) as u8;
        if let Some(w) = self.mate[v] {
            put_two_bytes(bytes, MATES_AT + 2 * v, w);
        }
        for j in 0..4 {
            bytes[COUNTS_AT + 4 * v + j] = self.count(v, j as i32) as u8;
        }
        for w in 0..self.n {
            if self.owner[v][w] {
                bytes[ROWS_AT + 32 * v + w / 8] += 1 << (w % 8);
            }
        }
        // "each board below n is in the roster of its level and in none besides,
        // with the other bits clear" (W-205)
        for level in LOWEST..=HIGHEST {
            if self.level[v] == level {
                bytes[roster_at(level) + v / 8] += 1 << (v % 8);
            }
        }
    }

    /// Reads a rack from its bytes; none if they aren't those of a sound rack.
    pub fn from_bytes(bytes: &[u8]) -> Option<Rack> {
        if !sound(bytes) {
            return None;
        }
        let mut rack = Rack::empty_with(settings(bytes)?, boards(bytes));
        for v in 0..rack.n {
            rack.level[v] = i32::from(level_byte(bytes, v)) - 1;
            let mate = mate_number(bytes, v);
            rack.mate[v] = (mate != IDLE).then_some(mate as usize);
            for w in 0..rack.n {
                rack.owner[v][w] = owns(bytes, v, w);
            }
        }
        Some(rack)
    }
}
