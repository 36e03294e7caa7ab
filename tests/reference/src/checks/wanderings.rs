//! Long random lists of changes, from empty racks and from sound racks at
//! random.

use super::makers::sound_rack;
use super::random::Random;
use super::walk::Walk;
use super::{holds, Tally, Verdict};
use crate::{Rack, Settings};

/// Boards of an empty rack, lists from it, changes of each, boards that adds prefer.
type List = (usize, u64, usize, usize);

/// Lists of the short form.
const LISTS: [List; 12] = [
    (1, 1, 40, 1),
    (2, 4, 200, 2),
    (3, 10, 300, 3),
    (5, 40, 400, 2),
    (6, 40, 400, 3),
    (7, 40, 400, 2),
    (8, 40, 400, 3),
    (12, 20, 500, 4),
    (25, 10, 800, 5),
    (70, 2, 1_000, 2),
    (140, 2, 1_200, 3),
    (256, 1, 1_200, 4),
];

/// Lists for each growth and top level.
const LISTS_OF_EACH: [List; 5] = [
    (2, 1, 40, 2),
    (5, 1, 200, 2),
    (8, 2, 250, 3),
    (20, 1, 300, 3),
    (72, 1, 150, 1),
];

pub fn from_empty_racks(tally: &mut Tally) -> Verdict {
    let earlier = tally.clone();
    for list in LISTS {
        from_empty(Settings::SHORT, list, 0xe000_0000, tally)?;
    }
    let tried = tally.walked_since(&earlier, &[0, 7, 8, 9, 10, 11, 12])?;
    let high = tally.standing_at(3) - earlier.standing_at(3);
    holds("some lists reach level 3", high > 0)?;
    Ok(format!(
        "{tried} from reached racks, {high} new pairs at level 3: ok"
    ))
}

/// Every fact is wanted "for all settings" (document 02, W-207).
pub fn from_empty_racks_of_all_settings(tally: &mut Tally) -> Verdict {
    let earlier = tally.clone();
    for (place, settings) in (0..).zip(Settings::all()) {
        for list in LISTS_OF_EACH {
            let told = |why| format!("{settings:?}, {why}");
            let first_seed = 0xe100_0000 + 0x10_0000 * place;
            from_empty(settings, list, first_seed, tally).map_err(told)?;
        }
    }
    let tried = tally.walked_since(&earlier, &[0, 7, 8, 9, 10, 11, 12])?;
    Ok(format!("{tried} from reached racks of all settings: ok"))
}

fn from_empty(
    settings: Settings,
    (n, lists, changes, hubs): List,
    first_seed: u64,
    tally: &mut Tally,
) -> Result<(), String> {
    for list in 0..lists {
        let seed = first_seed + 1000 * n as u64 + list;
        let name = format!("list from an empty rack of {n} boards, seed {seed:#x}");
        let mut random = Random::new(seed);
        let mut walk = Walk::start(Rack::empty_with(settings, n).to_bytes(), name)?;
        for done in 0..changes {
            // The rack grows for the first two thirds of the list.
            let adds = if 3 * done < 2 * changes { 80 } else { 35 };
            walk.random_change(&mut random, adds, hubs, tally)?;
        }
    }
    Ok(())
}

/// Random racks: lowest and highest number of boards, racks, changes of each.
const FEW_BOARDS: [(usize, usize, u64, usize); 3] =
    [(1, 8, 20_000, 4), (9, 20, 8_000, 4), (21, 60, 2_000, 4)];

const MANY_BOARDS: [(usize, usize, u64, usize); 3] =
    [(66, 120, 200, 6), (121, 255, 120, 6), (256, 256, 50, 6)];

pub fn from_random_racks(tally: &mut Tally) -> Verdict {
    let earlier = tally.clone();
    let racks = from_racks(&FEW_BOARDS, tally)?;
    let tried = tally.walked_since(&earlier, &[0, 7, 8, 9, 10, 11, 12])?;
    Ok(format!(
        "{tried} from {racks} random sound racks of 1 to 60 boards: ok"
    ))
}

pub fn from_large_random_racks(tally: &mut Tally) -> Verdict {
    let earlier = tally.clone();
    let racks = from_racks(&MANY_BOARDS, tally)?;
    let tried = tally.walked_since(&earlier, &[0, 7, 8, 9, 10, 11, 12])?;
    let high = tally.standing_at(3) - earlier.standing_at(3);
    holds("some large racks draw at level 3", high > 0)?;
    let told = format!("{tried} from {racks} random sound racks of 66 to 256 boards");
    Ok(format!("{told}, {high} new pairs at level 3: ok"))
}

fn from_racks(plan: &[(usize, usize, u64, usize)], tally: &mut Tally) -> Result<u64, String> {
    let mut racks = 0;
    for &(low, high, number, changes) in plan {
        for rack in 0..number {
            let seed = 0x5000_0000 + 0x10_0000 * low as u64 + rack;
            let mut random = Random::new(seed);
            let n = random.between(low, high);
            let settings = random.settings();
            let name = format!("random rack of {n} boards, {settings:?}, seed {seed:#x}");
            let start = sound_rack(&mut random, settings, n).to_bytes();
            let mut walk = Walk::start(start, name)?;
            for _ in 0..changes {
                walk.random_change(&mut random, 45, n, tally)?;
            }
            racks += 1;
        }
    }
    Ok(racks)
}
