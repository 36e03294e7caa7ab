//! The changes.

use crate::asked::Asked;
use crate::both::{self, same, Made, Twin};
use crate::cases;
use crate::change_tally::{fitting, Tally};
use crate::damage::{damaged, Damage, DAMAGES};
use crate::fans::{fan, fans};
use crate::lifts::{full_hub, lift, lifts};
use crate::rack_part::wrong_buffers;
use crate::racks::{self, Kind};
use crate::starts::{List, Start, LISTS, LISTS_OF_EACH, STARTS};
use crate::{stars, Verdict};
use reference::checks::ladders;
use reference::checks::random::Random;
use reference::checks::shortage::runs_out;
use reference::{Rack, Settings};

/// Of a hundred changes that use words, those made again with lists that end near
/// the last word needed.
const MADE_AGAIN: usize = 15;

/// Damaged racks of each kind of damage, and the seed of the first.
const DAMAGED: (u64, u64) = (2_000, 0x1600_0000);

pub fn all() -> Verdict {
    cases::changes()?;
    println!("P1 to P11: equal, and as stated");
    let mut whole = Tally::new();
    whole.add("from empty racks", &from_empty()?);
    let part = from_empty_of_each()?;
    whole.add("from empty racks of all settings", &part);
    for start in &STARTS {
        let part = from_racks(start)?;
        let told = |why| format!("{}: {why}", start.name);
        part.numbers.came(&[0]).map_err(told)?;
        part.decided.came(&[true]).map_err(told)?;
        whole.add(&format!("from {}", start.name), &part);
    }
    whole.add("from fans", &from_fans()?);
    whole.add("from lifts of all settings", &from_lifts()?);
    whole.add("from ladders of all settings", &from_ladders()?);
    whole.add("from stars of all settings", &from_stars()?);
    whole.add("from full hubs of all settings", &from_hubs()?);
    stars::all()?;
    for (name, damage) in DAMAGES {
        let part = on_damaged(name, damage)?;
        let told = |why| format!("damage to {name}: {why}");
        part.numbers.came(&[6]).map_err(told)?;
        whole.add(&format!("with damage to {name}"), &part);
    }
    let part = all_sorts()?;
    part.numbers.all_came()?;
    whole.add("with all sorts of figures", &part);
    whole.all_came()
}

/// One change of a rack.
fn step(twin: &mut Twin, asked: &Asked, tally: &mut Tally) -> Result<Made, String> {
    let before = twin.rack.clone();
    let fit = fitting(&before, asked);
    let made = twin.change(asked)?;
    let change = (asked.code, asked.a, asked.b);
    let number = match fit.first() {
        Some(number) => *number,
        None if runs_out(&before, change, &asked.words).is_some() => 12,
        None => 0,
    };
    same("the first number that fits", made.answer.number, number)?;
    tally.note_on(&before, asked, &fit, &made, &twin.rack);
    if number == 0 {
        tally.by_settings.note_counts(&twin.bytes);
        tally.rosters.ask_on(&twin.bytes, &twin.rack)?;
    }
    Ok(made)
}

/// Random changes on one rack, one after the other.
fn walk(
    random: &mut Random,
    twin: &mut Twin,
    changes: usize,
    adds: usize,
    tally: &mut Tally,
) -> Verdict {
    tally.rosters.ask_on(&twin.bytes, &twin.rack)?;
    for place in 0..changes {
        let told = |why| format!("change {place}: {why}");
        let asked = Asked::any(random, &twin.rack, adds);
        let before = twin.clone();
        let made = step(twin, &asked, tally).map_err(told)?;
        if made.answer.draws > 0 && random.percent(MADE_AGAIN) {
            let lists = &mut tally.words.lists;
            lists.end(&before, &asked, &made, twin).map_err(told)?;
        }
    }
    Ok(())
}

fn from_empty() -> Result<Tally, String> {
    let mut tally = Tally::new();
    for list in LISTS {
        lists(Settings::SHORT, list, 0x1000_0000, &mut tally)?;
    }
    Ok(tally)
}

fn from_empty_of_each() -> Result<Tally, String> {
    let mut tally = Tally::new();
    for (place, settings) in (0..).zip(Settings::all()) {
        for list in LISTS_OF_EACH {
            let first_seed = 0x1c00_0000 + 0x10_0000 * place;
            let told = |why| format!("{settings:?}, {why}");
            lists(settings, list, first_seed, &mut tally).map_err(told)?;
        }
    }
    Ok(tally)
}

fn lists(
    settings: Settings,
    (n, lists, changes): List,
    first_seed: u64,
    tally: &mut Tally,
) -> Verdict {
    for list in 0..lists {
        let seed = first_seed + 1_000 * n as u64 + list;
        let told = |why| format!("empty rack of {n} boards, seed {seed:#x}, {why}");
        let mut random = Random::new(seed);
        let mut twin = Twin::start(Rack::empty_with(settings, n));
        // The rack grows for the first two thirds of the list.
        let grown = 2 * changes / 3;
        walk(&mut random, &mut twin, grown, 80, tally).map_err(told)?;
        walk(&mut random, &mut twin, changes - grown, 35, tally).map_err(told)?;
    }
    Ok(())
}

fn from_racks(start: &Start) -> Result<Tally, String> {
    let mut tally = Tally::new();
    for seed in start.first_seed..start.first_seed + start.racks {
        let mut random = Random::new(seed);
        let n = match start.sizes {
            None => racks::size(&mut random),
            Some((least, most)) => random.between(least, most),
        };
        let settings = random.settings();
        let told = |why| {
            let name = start.name;
            format!("{name}, seed {seed:#x}, {n} boards, {settings:?}, {why}")
        };
        let rack = racks::rack_with(&mut random, settings, n, start.kind);
        let mut twin = Twin::start(rack);
        walk(&mut random, &mut twin, start.changes, 40, &mut tally).map_err(told)?;
    }
    Ok(tally)
}

/// Fans of all sizes: the drop that opens them, and random changes after it.
fn from_fans() -> Result<Tally, String> {
    let mut tally = Tally::new();
    for one in fans() {
        let (settings, level, ribs) = one;
        let seed = 0x1800_0000 + 100 * level as u64 + ribs as u64;
        let told = |why| format!("fan {level} {ribs}, {settings:?}, seed {seed:#x}, {why}");
        let mut random = Random::new(seed);
        let (rack, opening) = fan(&mut random, one);
        opened(&mut random, Twin::start(rack), &opening, 5, &mut tally).map_err(told)?;
    }
    // Those of the largest fan, all of whose ribs rise.
    let most = (tally.most_new_pairs, tally.most_falls);
    same("most new pairs and falls of a fan", most, (48, 296))?;
    Ok(tally)
}

/// A change that is made, and so many random ones after it.
fn opened(
    random: &mut Random,
    mut twin: Twin,
    opening: &Asked,
    changes: usize,
    tally: &mut Tally,
) -> Verdict {
    let made = step(&mut twin, opening, tally)?;
    same("number of the opening", made.answer.number, 0)?;
    walk(random, &mut twin, changes, 40, tally)
}

/// Lifts with just enough neighbours, and with one fewer, by which nobody rises.
fn from_lifts() -> Result<Tally, String> {
    let mut tally = Tally::new();
    for (place, one) in (0..).zip(lifts()) {
        let (settings, from, to) = one;
        let told = |why| format!("lift from {from} to {to}, {settings:?}, {why}");
        let mut random = Random::new(0x1d00_0000 + place);
        for fewer in [1, 0] {
            let (twin, asked) = lift(one, fewer);
            opened(&mut random, twin, &asked, 2, &mut tally).map_err(told)?;
        }
    }
    Ok(tally)
}

/// Adds by which several levels are reached at once.
fn from_ladders() -> Result<Tally, String> {
    let mut tally = Tally::new();
    for (place, case) in (0..).zip(ladders::cases()) {
        let Rack { n, settings, .. } = case.rack;
        let told = |why| format!("ladder of {n} boards, {settings:?}, {why}");
        let mut random = Random::new(0x1f00_0000 + place);
        let (code, a, b) = case.change;
        let words = case.words.clone();
        let asked = Asked { code, a, b, words };
        opened(&mut random, Twin::start(case.rack), &asked, 2, &mut tally).map_err(told)?;
    }
    Ok(tally)
}

/// Stars of every level with just enough neighbours for each lower one, and with one
/// fewer.
fn from_stars() -> Result<Tally, String> {
    let mut tally = Tally::new();
    for (place, one) in (0..).zip(stars::landings()) {
        let (settings, level, k) = one;
        let told = |why| format!("star of {k} at {level}, {settings:?}, {why}");
        let mut random = Random::new(0x1e00_0000 + place);
        let (twin, mut asked) = stars::star(one);
        asked.words = vec![random.below(k + 1) as u32];
        opened(&mut random, twin, &asked, 2, &mut tally).map_err(told)?;
    }
    Ok(tally)
}

fn from_hubs() -> Result<Tally, String> {
    let mut tally = Tally::new();
    for settings in Settings::all() {
        let (mut twin, changes) = full_hub(settings);
        for asked in &changes {
            let told = |why| format!("full hub, {settings:?}, {why}");
            let number = step(&mut twin, asked, &mut tally).map_err(told)?;
            same("number", number.answer.number, 0).map_err(told)?;
        }
    }
    Ok(tally)
}

fn on_damaged(name: &str, damage: Damage) -> Result<Tally, String> {
    let mut tally = Tally::new();
    let (number, first) = DAMAGED;
    for seed in first..first + number {
        let mut random = Random::new(seed);
        let n = racks::size(&mut random);
        let kind = random.pick(&[Kind::Reached, Kind::Random, Kind::Dense]);
        let settings = random.settings();
        let rack = racks::rack_with(&mut random, settings, n, kind);
        let asked = Asked::any(&mut random, &rack, 45);
        let bytes = damaged(&mut random, &rack, damage);
        let told = |why| format!("damage to {name}, seed {seed:#x}, {n} boards: {why}");
        tally.note(&both::change(&bytes, &asked).map_err(told)?);
        tally.rosters.ask(&bytes).map_err(told)?;
    }
    Ok(tally)
}

/// Codes, vertices and lengths of word lists within and without their bounds,
/// on a sound rack, a damaged one and buffers of a wrong length: the first
/// number that fits is the one.
fn all_sorts() -> Result<Tally, String> {
    let mut random = Random::new(0x1700_0000);
    let sound = racks::rack(&mut random, 6, Kind::Random).to_bytes();
    let mut damaged = sound.clone();
    damaged[7] ^= 1;
    let settings = Settings { growth: 2, top: 1 };
    let other = racks::rack_with(&mut random, settings, 6, Kind::Random).to_bytes();
    let mut buffers = vec![sound, other, Rack::empty(6).to_bytes(), damaged];
    buffers.extend(wrong_buffers());
    let mut tally = Tally::new();
    for buffer in &buffers {
        tally.rosters.ask(buffer)?;
        for code in [0, 1, 2, 3, 256, 257, u32::MAX] {
            for a in ENDS {
                for b in ENDS {
                    let mut words = random.words_for(6);
                    words.truncate(random.pick(&[0, 9]));
                    let asked = Asked { code, a, b, words };
                    tally.note(&both::change(buffer, &asked)?);
                }
            }
        }
    }
    Ok(tally)
}

const ENDS: [u32; 11] = [0, 1, 2, 3, 5, 6, 7, 255, 256, 65_535, u32::MAX];
