//! The thresholds of all settings (document 02, W-207) told by hand, and changes at
//! other settings than 4 and 3 worked out by hand.

use super::cases::{play, Case};
use super::makers::drawn_with;
use super::{same, Tally, Verdict};
use crate::Settings;

/// "The threshold at j is g to the power j": a row for each growth from 2 to 8, at 0,
/// 1, 2 and 3.
const THRESHOLDS: [[usize; 4]; 7] = [
    [1, 2, 4, 8],
    [1, 3, 9, 27],
    [1, 4, 16, 64],
    [1, 5, 25, 125],
    [1, 6, 36, 216],
    [1, 7, 49, 343],
    [1, 8, 64, 512],
];

/// The threshold at j by the table.
pub fn limit(settings: Settings, j: i32) -> usize {
    THRESHOLDS[settings.growth - 2][j as usize]
}

/// The thresholds that a rack's bytes tell of, one for each level from 0 to the top
/// level: "kept in bytes 4 (g) and 5 (t)", "levels stop at t". None if there is no
/// such growth or top level.
pub fn limits(rack: &[u8]) -> Option<&'static [usize]> {
    let row = THRESHOLDS.get(usize::from(rack[4]).checked_sub(2)?)?;
    row.get(..=usize::from(rack[5]))
}

/// The levels of these settings that a board can draw at: it has at most 255
/// neighbours, and at least as many below the level as the threshold is.
pub fn drawn_at(settings: Settings) -> impl Iterator<Item = i32> {
    (0..=settings.top).filter(move |&j| limit(settings, j) <= 255)
}

pub fn told_by_hand(tally: &mut Tally) -> Verdict {
    let all: Vec<Settings> = Settings::all().collect();
    same("settings", all.len(), 28)?;
    for (place, settings) in all.into_iter().enumerate() {
        let (growth, top) = (2 + place / 4, place as i32 % 4);
        same("settings", settings, Settings { growth, top })?;
        let powers = [0, 1, 2, 3].map(|j| settings.threshold(j));
        same("thresholds", powers, THRESHOLDS[growth - 2])?;
    }
    let rows = [
        second_neighbour(),
        second_is_too_few(),
        fourth_neighbour(2, 1, 2),
        fourth_neighbour(3, 1, 1),
        fourth_neighbour(5, 0, 0),
        fourth_neighbour(8, 0, 0),
        no_rise_past_the_top(2, 1),
        no_rise_past_the_top(2, 0),
        stays_by_two(),
        falls_below_three(),
        parted_at_top_0(),
    ];
    for row in &rows {
        tally.changes += 1;
        play(row).map_err(|why| format!("settings, '{}': {why}", row.name))?;
    }
    Ok(format!(
        "28 settings with their thresholds, {} rows on settings: ok",
        rows.len()
    ))
}

fn at(growth: usize, top: i32) -> Settings {
    Settings { growth, top }
}

/// Growth 2: with a second neighbour 0 reaches level 1, and draws 2. 1 falls.
fn second_neighbour() -> Case {
    Case {
        name: "two neighbours are enough for level 1",
        rack: drawn_with(at(2, 3), 3, &[(0, 1, 0)], &[(0, 1)]),
        change: (1, 2, 0),
        words: vec![1],
        new_pairs: vec![(0, 2)],
        falls: 1,
        after: drawn_with(at(2, 3), 3, &[(0, 2, 1)], &[(0, 1), (0, 2)]),
    }
}

/// Growth 3: by the same link nobody rises.
fn second_is_too_few() -> Case {
    Case {
        name: "two neighbours are too few for level 1",
        rack: drawn_with(at(3, 3), 3, &[(0, 1, 0)], &[(0, 1)]),
        change: (1, 2, 0),
        words: vec![1],
        new_pairs: vec![],
        falls: 0,
        after: drawn_with(at(3, 3), 3, &[(0, 1, 0)], &[(0, 1), (0, 2)]),
    }
}

/// The add of P4 at other growths. A hub with three neighbours is at level 1 with
/// growth 2 or 3, and with a higher one at 0. A fourth makes it rise with growth 2
/// alone, whose threshold at 2 is 4: it draws 3, and 1 falls to -1.
fn fourth_neighbour(growth: usize, before: i32, after: i32) -> Case {
    let settings = at(growth, 3);
    let links = [(0, 1), (0, 2), (0, 3), (0, 4)];
    let (mate, new_pairs, falls) = match after > before {
        true => (3, vec![(0, 3)], before as u32 + 1),
        false => (1, vec![], 0),
    };
    Case {
        name: "a fourth neighbour",
        rack: drawn_with(settings, 5, &[(0, 1, before)], &links[..3]),
        change: (1, 0, 4),
        words: vec![2],
        new_pairs,
        falls,
        after: drawn_with(settings, 5, &[(0, mate, after)], &links),
    }
}

/// "levels stop at t, and counts above t are 0": the same link, by which 0 rises with
/// growth 2 if there is a level 2, and does nothing if the top level is lower.
fn no_rise_past_the_top(growth: usize, top: i32) -> Case {
    let settings = at(growth, top);
    let links = [(0, 1), (0, 2), (0, 3), (0, 4)];
    Case {
        name: "no rise past the top level",
        rack: drawn_with(settings, 5, &[(0, 1, top)], &links[..3]),
        change: (1, 4, 0),
        words: vec![2],
        new_pairs: vec![],
        falls: 0,
        after: drawn_with(settings, 5, &[(0, 1, top)], &links),
    }
}

/// Growth 2: two neighbours are also enough to stay at level 1. 0 draws 2 there, and
/// 3 falls to -1.
fn stays_by_two() -> Case {
    let settings = at(2, 1);
    Case {
        name: "two neighbours are enough to stay",
        rack: drawn_with(settings, 4, &[(0, 3, 1)], &[(0, 1), (0, 2), (0, 3)]),
        change: (2, 0, 3),
        words: vec![1],
        new_pairs: vec![(0, 2)],
        falls: 2,
        after: drawn_with(settings, 4, &[(0, 2, 1)], &[(0, 1), (0, 2)]),
    }
}

/// Growth 3: by the same drop 0 falls too, and draws 2 at level 0.
fn falls_below_three() -> Case {
    let settings = at(3, 1);
    Case {
        name: "two neighbours are too few to stay",
        rack: drawn_with(settings, 4, &[(0, 3, 1)], &[(0, 1), (0, 2), (0, 3)]),
        change: (2, 0, 3),
        words: vec![1],
        new_pairs: vec![(0, 2)],
        falls: 3,
        after: drawn_with(settings, 4, &[(0, 2, 0)], &[(0, 1), (0, 2)]),
    }
}

/// Top level 0: a hub of any size is at 0 and draws there. 1 falls.
fn parted_at_top_0() -> Case {
    let settings = at(2, 0);
    let links = [(0, 1), (0, 2), (0, 3), (0, 4)];
    Case {
        name: "a pair parted at top level 0",
        rack: drawn_with(settings, 5, &[(0, 1, 0)], &links),
        change: (2, 1, 0),
        words: vec![2],
        new_pairs: vec![(0, 4)],
        falls: 1,
        after: drawn_with(settings, 5, &[(0, 4, 0)], &links[1..]),
    }
}
