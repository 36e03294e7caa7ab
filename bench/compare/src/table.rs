//! The table of times: both sides in one run, on the same racks.

use crate::cases::{counts_at_levels, with_edges, Parted, Series, Size, DENSEST};
use crate::side::Side;
use crate::texts::{Text, TEXTS};
use std::hint::black_box;
use std::time::Instant;
use tuned::{RackBytes, RACK_BYTES, RECORD_SPACE};

/// The sides take turns so often, or until a line of the table has taken this
/// many seconds, and the best turn of each counts: the others were disturbed.
const TURNS: usize = 15;
const SECONDS: u64 = 4;

/// Audits or roster queries, and runs, in one turn.
const AUDITS: usize = 200;
const RUNS: usize = 10;

/// Nanoseconds a call of the core, the tuned program, and the tuned program
/// without audits; none if a side has no such call.
type Times = [Option<f64>; 3];

const SIDES: [Side; 3] = [Side::Core, Side::Tuned, Side::Bare];

pub fn print() {
    let heads = ["core", "tuned", "ratio", "bare"].map(|head| format!("{head:>10}"));
    println!("{:32}{}", "nanoseconds a call", heads.concat());
    for edges in [0, 256, 1_000, 2_000, 4_000, 16_000, DENSEST] {
        let name = format!("audit, 256 / {edges} links");
        line(&name, audits(&with_edges(Size::of_256(edges))));
    }
    for edges in [256, DENSEST] {
        let name = format!("roster, 256 / {edges} links");
        line(&name, rosters(&with_edges(Size::of_256(edges))));
    }
    for n in [16, 64, 256] {
        let series = Series::of(n);
        line(&format!("change, n = {n}"), direct(&series));
        line(&format!("change in series, n = {n}"), long(&series));
    }
    for n in [64, 256] {
        line(&format!("parted, {n} / half of the links"), drops(n));
    }
    for (kind, n) in TEXTS {
        let text = Text::of(kind, n).expect("a kind of text");
        let name = match kind {
            "run" => format!("change in a run, n = {n}"),
            _ => format!("{kind}, n = {n}"),
        };
        line(&name, runs(&text));
    }
    println!("bare: the tuned change or roster query without its audit; a run audits no change; parted: the drop of a pair");
    println!("roster: the query for the number of boards at a level");
    println!("refused: a run in which four of five changes are refused; words: one with 128 words of ten digits a change;");
    println!("line: a whole run of a text of one line");
    if cfg!(not(target_feature = "popcnt")) {
        println!("tuned without popcnt: start it in bench/ to have that");
    }
}

fn line(name: &str, times: Times) {
    let [core, tuned, bare] = times;
    let ratio = core.zip(tuned).map(|(core, tuned)| core / tuned);
    let figure = |time: Option<f64>, places: usize| match time {
        Some(time) => format!("{time:10.places$}"),
        None => format!("{:>10}", "-"),
    };
    let [core, tuned, ratio, bare] =
        [(core, 0), (tuned, 0), (ratio, 2), (bare, 0)].map(|(time, places)| figure(time, places));
    println!("{name:32}{core}{tuned}{ratio}{bare}");
}

/// The best time of each side.
fn best(mut turn: impl FnMut(Side) -> Option<f64>) -> Times {
    let mut times = [None; 3];
    let start = Instant::now();
    for turns in 0..TURNS {
        if turns > 0 && start.elapsed().as_secs() >= SECONDS {
            break;
        }
        for (side, best) in SIDES.into_iter().zip(&mut times) {
            let time = turn(side);
            *best = time.map(|time| best.map_or(time, |best: f64| best.min(time)));
        }
    }
    times
}

/// The time of some work divided by its calls.
fn timed(calls: usize, work: impl FnOnce()) -> f64 {
    let start = Instant::now();
    work();
    start.elapsed().as_nanos() as f64 / calls as f64
}

fn audits(rack: &RackBytes) -> Times {
    best(|side| {
        let work = || {
            for _ in 0..AUDITS {
                assert!(side.audit(black_box(rack)), "a sound rack");
            }
        };
        (side != Side::Bare).then(|| timed(AUDITS, work))
    })
}

/// Queries for how many vertices are at a level, at each in turn.
#[inline(never)]
fn rosters(rack: &RackBytes) -> Times {
    let counts = counts_at_levels(rack);
    best(|side| {
        let time = timed(AUDITS, || {
            for (level, count) in counts.iter().cycle().take(AUDITS) {
                let came = side.roster(black_box(rack), *level);
                assert_eq!(came, Some(*count), "the vertices at level {level}");
            }
        });
        Some(time)
    })
}

/// One change on each of the racks along the series.
fn direct(series: &Series) -> Times {
    best(|side| {
        let mut racks = series.racks.clone();
        let time = timed(racks.len(), || {
            for (rack, place) in &mut racks {
                let change = &series.changes[*place];
                black_box(side.change(rack, change, series.words(change)));
            }
        });
        Some(time)
    })
}

/// One drop of each pair of n vertices with half of all edges. It is not inlined,
/// so that it leaves the racks of `once` in their place.
#[inline(never)]
fn drops(n: usize) -> Times {
    let parted = Parted::of(Size::half(n));
    best(|side| {
        let mut racks = parted.racks.clone();
        let time = timed(racks.len(), || {
            for (rack, change) in &mut racks {
                black_box(side.change(rack, change, &parted.words));
            }
        });
        Some(time)
    })
}

/// The whole series on one rack, which every side must bring to the same end.
fn long(series: &Series) -> Times {
    best(|side| {
        let mut rack = series.start();
        let time = timed(series.changes.len(), || {
            for change in &series.changes {
                black_box(side.change(&mut rack, change, series.words(change)));
            }
        });
        assert!(rack == series.end, "another rack at the end");
        Some(time)
    })
}

/// A change of a run, on average, with its share of reading and printing.
fn runs(text: &Text) -> Times {
    let mut rack = [0; RACK_BYTES];
    let mut space = vec![0; RECORD_SPACE];
    best(|side| {
        let work = || {
            for _ in 0..RUNS {
                let run = side.run(&mut rack, black_box(text.bytes()), &mut space);
                assert_eq!(run.0, 0, "a text that fits");
            }
        };
        (side != Side::Bare).then(|| timed(RUNS * text.changes, work))
    })
}
