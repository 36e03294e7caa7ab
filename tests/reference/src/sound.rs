//! "A rack is sound if" - the conditions of document 01 one by one, in its order,
//! looked at in the bytes themselves. Those of document 02 stand among them: the
//! settings after the spare bytes, the rosters after the level bytes.

use crate::image::{
    boards, counts, in_roster, level_byte, link_number, mate_number, owns, row, settings, spare,
    IDLE, PLACES, RACK_BYTES,
};
use crate::rack::{Settings, HIGHEST, LOWEST};

/// Whether these bytes are a sound rack. Any bytes may be asked about; a
/// condition is looked at only when all the ones before it hold.
pub fn sound(bytes: &[u8]) -> bool {
    bytes.len() == RACK_BYTES
        && spare_bytes_are_zero(bytes)
        && settings_are_in_range(bytes)
        && entries_past_the_boards_are_empty(bytes)
        && board_number_is_right(bytes)
        && level_bytes_are_right(bytes)
        && rosters_are_right(bytes)
        && no_row_names_its_own_board(bytes)
        && no_link_has_both_bits(bytes)
        && link_number_is_right(bytes)
        && counts_are_right(bytes)
        && owners_are_high_enough(bytes)
        && mates_are_right(bytes)
        && idle_exactly_at_the_lowest_level(bytes)
        && counts_are_below_their_thresholds(bytes)
}

/// "6 and 7 stay zero" (document 02, W-207)
fn spare_bytes_are_zero(bytes: &[u8]) -> bool {
    spare(bytes).iter().all(|&byte| byte == 0)
}

/// "The audit tests both bytes" (W-207).
fn settings_are_in_range(bytes: &[u8]) -> bool {
    settings(bytes).is_some()
}

/// The settings, for the conditions that come after the one on their bytes.
fn tested_settings(bytes: &[u8]) -> Settings {
    settings(bytes).expect("looked at before")
}

/// "the entries of boards n to 255 are as just said": "level byte 0, mate
/// 65,535, counts 0, empty row, and no row names them." (The rows from n on
/// are empty, so only the rows below n can name them.)
fn entries_past_the_boards_are_empty(bytes: &[u8]) -> bool {
    (boards(bytes)..PLACES).all(|v| {
        level_byte(bytes, v) == 0
            && mate_number(bytes, v) == IDLE
            && counts(bytes, v).iter().all(|&count| count == 0)
            && row(bytes, v).iter().all(|&byte| byte == 0)
            && (0..boards(bytes)).all(|u| !owns(bytes, u, v))
    })
}

/// "n is 1 to 256"
fn board_number_is_right(bytes: &[u8]) -> bool {
    1 <= boards(bytes) && boards(bytes) <= PLACES
}

/// "level bytes are 0 to t plus 1" (document 02, W-207)
fn level_bytes_are_right(bytes: &[u8]) -> bool {
    let top = tested_settings(bytes).top;
    (0..boards(bytes)).all(|v| level(bytes, v) <= top)
}

/// "each board below n is in the roster of its level and in none besides, with
/// the other bits clear" (document 02, W-205)
fn rosters_are_right(bytes: &[u8]) -> bool {
    let n = boards(bytes);
    (0..PLACES).all(|v| {
        let stands_at = |i| v < n && level(bytes, v) == i;
        (LOWEST..=HIGHEST).all(|i| in_roster(bytes, i, v) == stands_at(i))
    })
}

/// "no row names its own board"
fn no_row_names_its_own_board(bytes: &[u8]) -> bool {
    (0..boards(bytes)).all(|v| !owns(bytes, v, v))
}

/// "no link has both bits set"
fn no_link_has_both_bits(bytes: &[u8]) -> bool {
    all_two_boards(bytes, |v, w| !(owns(bytes, v, w) && owns(bytes, w, v)))
}

/// "the link number and counts are right": the link number. Each link has one
/// bit by now, so the links are as many as the bits set in all rows.
fn link_number_is_right(bytes: &[u8]) -> bool {
    let mut links = 0;
    for v in 0..boards(bytes) {
        links += (0..boards(bytes)).filter(|&w| owns(bytes, v, w)).count();
    }
    links == link_number(bytes)
}

/// "the link number and counts are right": the counts, from "the number of
/// neighbours whose level is below j if j is above v's level, and otherwise 0."
/// And: "counts above t are 0" (document 02, W-207).
fn counts_are_right(bytes: &[u8]) -> bool {
    let top = tested_settings(bytes).top;
    (0..boards(bytes)).all(|v| {
        let levels = neighbour_levels(bytes, v);
        (0..4).all(|j| {
            let right = if j > level(bytes, v) && j <= top {
                levels.iter().filter(|&&level| level < j).count()
            } else {
                0
            };
            usize::from(counts(bytes, v)[j as usize]) == right
        })
    })
}

/// "an owner's level is at least the other end's"
fn owners_are_high_enough(bytes: &[u8]) -> bool {
    all_two_boards(bytes, |v, w| {
        !owns(bytes, v, w) || level(bytes, v) >= level(bytes, w)
    })
}

/// "mates name each other and are linked on one level"
fn mates_are_right(bytes: &[u8]) -> bool {
    (0..boards(bytes)).all(|v| {
        let mate = mate_number(bytes, v);
        let w = mate as usize;
        mate == IDLE
            || (w < boards(bytes)
                && mate_number(bytes, w) as usize == v
                && (owns(bytes, v, w) || owns(bytes, w, v))
                && level(bytes, v) == level(bytes, w))
    })
}

/// "a board is idle exactly when its level is -1"
fn idle_exactly_at_the_lowest_level(bytes: &[u8]) -> bool {
    (0..boards(bytes)).all(|v| (mate_number(bytes, v) == IDLE) == (level(bytes, v) == -1))
}

/// "each count at j is below 4^j", "with g and t for 4 and 3" (document 02, W-207)
fn counts_are_below_their_thresholds(bytes: &[u8]) -> bool {
    let settings = tested_settings(bytes);
    let below = |v, j| usize::from(counts(bytes, v)[j as usize]) < settings.threshold(j);
    (0..boards(bytes)).all(|v| (0..=settings.top).all(|j| below(v, j)))
}

fn level(bytes: &[u8], v: usize) -> i32 {
    i32::from(level_byte(bytes, v)) - 1
}

/// The levels of all neighbours of v.
fn neighbour_levels(bytes: &[u8], v: usize) -> Vec<i32> {
    (0..boards(bytes))
        .filter(|&w| owns(bytes, v, w) || owns(bytes, w, v))
        .map(|w| level(bytes, w))
        .collect()
}

/// Whether something holds of every v and w, in both orders.
fn all_two_boards(bytes: &[u8], holds: impl Fn(usize, usize) -> bool) -> bool {
    let n = boards(bytes);
    (0..n).all(|v| (0..n).all(|w| v == w || holds(v, w)))
}
