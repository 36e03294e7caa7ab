//! Traces of all settings: random changes, and hubs at every level that a board can
//! come to.

use super::trace::{words, Style, Trace, STYLES};
use super::{Case, Family};
use reference::checks::random::Random;
use reference::checks::settings::drawn_at;
use reference::{Settings, TEXT_LIMIT};

/// Traces for each growth and top level with few boards and with many.
const FEW: usize = 12;
const MANY: usize = 2;

pub fn families() -> Vec<Family> {
    let all: Vec<Settings> = Settings::all().collect();
    let of_level = |settings| drawn_at(settings).map(move |level| (settings, level));
    let hubs: Vec<(Settings, i32)> = Settings::all().flat_map(of_level).collect();
    let number = |of_each: usize| (of_each * all.len()) as u64;
    let (few, many, levels) = (number(FEW), number(MANY), hubs.len() as u64);
    let (other, third) = (all.clone(), all.clone());
    let one_each = all.len() as u64;
    vec![
        Family::new("traces of all settings", few, &[0], move |k| {
            grown(k, all[k as usize % all.len()], (1, 16))
        }),
        Family::new(
            "traces of all settings, more boards",
            many,
            &[0],
            move |k| grown(k, other[k as usize % other.len()], (17, 70)),
        ),
        Family::new("hubs of all settings", 2 * levels, &[0], move |k| {
            hub(k, hubs[k as usize % hubs.len()], k >= levels)
        }),
        Family::new("full hubs of all settings", one_each, &[0], move |k| {
            full_hub(k, third[k as usize])
        }),
    ]
}

/// Random changes, as many as there is room for.
fn grown(seed: u64, settings: Settings, (least, most): (usize, usize)) -> Case {
    let mut random = Random::new(0x2700_0000 + seed);
    let n = random.between(least, most);
    let limit = random.between(300, 5_000);
    let style = random.pick(&STYLES);
    let mut trace = Trace::start_with(settings, n, limit);
    while trace.any(&mut random, style, 70).is_some() {}
    trace.into()
}

/// A hub is linked to just as many boards as the threshold of a level is. Then it may
/// be parted as long as it has a mate.
fn hub(seed: u64, (settings, level): (Settings, i32), parted: bool) -> Case {
    let mut random = Random::new(0x2800_0000 + seed);
    let neighbours = settings.threshold(level);
    let mut order: Vec<usize> = (0..(neighbours + 1 + random.below(4)).min(256)).collect();
    let n = order.len();
    random.shuffle(&mut order);
    let hub = order[0];
    let mut trace = Trace::start_with(settings, n, TEXT_LIMIT);
    for &other in &order[1..=neighbours] {
        let words = words(&mut random, Style::Short, 2);
        trace.change(1, hub, other, &words);
    }
    assert_eq!(trace.top, level, "the level of a hub");
    while let Some(mate) = trace.rack.mate[hub].filter(|_| parted) {
        let words = words(&mut random, Style::FirstLong, 3);
        if trace
            .change(2, hub, mate, &words)
            .is_none_or(|answer| answer.number != 0)
        {
            break;
        }
    }
    trace.into()
}

/// A hub is linked to all of 255 other boards, and parted from its mate.
fn full_hub(seed: u64, settings: Settings) -> Case {
    let mut random = Random::new(0x2900_0000 + seed);
    let mut trace = Trace::start_with(settings, 256, TEXT_LIMIT);
    let hub = random.below(256);
    for other in (0..256).filter(|&other| other != hub) {
        let words = words(&mut random, Style::Short, 1);
        trace.change(1, hub, other, &words);
    }
    if let Some(mate) = trace.rack.mate[hub] {
        let words = words(&mut random, Style::Any, 3);
        trace.change(2, hub, mate, &words);
    }
    trace.into()
}
