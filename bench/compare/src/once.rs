//! One kind of call, so many times, on one side alone: for counting its
//! instructions.
//!
//! To copy or clear bytes takes libc a few instructions more or less by where
//! they lie. What would move the racks of other kinds is not inlined.

use crate::cases::{chain, counts_at_levels, with_edges, Parted, Series, Size};
use crate::side::Side;
use crate::texts::Text;
use std::hint::black_box;
use tuned::{RackBytes, RACK_BYTES, RECORD_SPACE};

/// Makes the calls and gives how many calls, or changes of runs, they were.
/// The size is the edges of a rack of 256 vertices for "audit", "roster", "parted",
/// "drawn", "tried" and "short", or else the vertices.
pub fn once(side: Side, kind: &str, size: usize, calls: usize) -> Result<usize, String> {
    match kind {
        "audit" | "half-audit" | "full-audit" => {
            Ok(audits(side, with_edges(sized(kind, size)), calls))
        }
        "chain-audit" => Ok(audits(side, chain(size), calls)),
        "roster" => Ok(rosters(side, sized(kind, size), calls)),
        "direct" => direct(side, size, calls),
        "before" => before(side, size, calls),
        "parted" | "half" | "full" => parted(side, sized(kind, size), calls),
        "drawn" | "tried" | "short" => drawn(side, kind, size, calls),
        "series" => series(side, size, calls),
        _ => match Text::of(kind, size) {
            Some(text) => Ok(runs(side, &text, calls)),
            None => Err(format!("no such kind: {kind}")),
        },
    }
}

/// The size of the rack for a kind of audits, queries or drops.
fn sized(kind: &str, size: usize) -> Size {
    match kind {
        "half" | "half-audit" => Size::half(size),
        "full" | "full-audit" => Size::full(size),
        _ => Size::of_256(size),
    }
}

/// The calls alone, in a function by whose name a tool can find them.
#[inline(never)]
fn measured(calls: impl FnOnce()) {
    calls();
}

fn audits(side: Side, rack: RackBytes, calls: usize) -> usize {
    measured(|| {
        for _ in 0..calls {
            assert!(side.audit(black_box(&rack)), "a sound rack");
        }
    });
    calls
}

/// Queries for how many vertices are at a level, at each in turn.
#[inline(never)]
fn rosters(side: Side, size: Size, calls: usize) -> usize {
    let rack = with_edges(size);
    let counts = counts_at_levels(&rack);
    measured(|| {
        for (level, count) in counts.iter().cycle().take(calls) {
            let came = side.roster(black_box(&rack), *level);
            assert_eq!(came, Some(*count), "the vertices at level {level}");
        }
    });
    calls
}

fn direct(side: Side, n: usize, calls: usize) -> Result<usize, String> {
    let mut series = Series::of(n);
    let mut racks = std::mem::take(&mut series.racks);
    if calls > racks.len() {
        return Err(format!("at most {} direct changes", racks.len()));
    }
    measured(|| {
        for (rack, place) in &mut racks[..calls] {
            let change = &series.changes[*place];
            black_box(side.change(rack, change, series.words(change)));
        }
    });
    Ok(calls)
}

/// The audits of the racks that the direct changes are made on: what such a
/// change spends before its first move.
fn before(side: Side, n: usize, calls: usize) -> Result<usize, String> {
    let series = Series::of(n);
    if calls > series.racks.len() {
        return Err(format!("at most {} racks", series.racks.len()));
    }
    measured(|| {
        for (rack, _) in &series.racks[..calls] {
            assert!(side.audit(black_box(rack)), "a sound rack");
        }
    });
    Ok(calls)
}

/// Drops of pairs, each on the same rack.
fn parted(side: Side, size: Size, calls: usize) -> Result<usize, String> {
    let Parted { mut racks, words } = Parted::of(size);
    if calls > racks.len() {
        return Err(format!("at most {} drops", racks.len()));
    }
    measured(|| {
        for (rack, change) in &mut racks[..calls] {
            black_box(side.change(rack, change, &words));
        }
    });
    Ok(calls)
}

/// Drops of pairs that draw, on a rack of 256 vertices with so many edges: "drawn"
/// has all words, "tried" just those that it uses, and "short" none, which is 12.
#[inline(never)]
fn drawn(side: Side, kind: &str, edges: usize, calls: usize) -> Result<usize, String> {
    let (Parted { mut racks, words }, used) = Parted::of(Size::of_256(edges)).drawing();
    if calls > racks.len() {
        return Err(format!("at most {} drops", racks.len()));
    }
    let lent = |used: usize| match kind {
        "drawn" => &words[..],
        "tried" => &words[..used],
        _ => &[],
    };
    let lists: Vec<&[u32]> = used.into_iter().map(lent).collect();
    let wanted = if kind == "short" { 12 } else { 0 };
    for ((rack, change), words) in racks.iter().zip(&lists) {
        let number = side.change(&mut rack.clone(), change, words).0;
        assert_eq!(number, wanted, "the number of a change");
    }
    measured(|| {
        for ((rack, change), words) in racks[..calls].iter_mut().zip(&lists) {
            black_box(side.change(rack, change, words));
        }
    });
    Ok(calls)
}

/// The changes of a series, one after the other on one rack.
#[inline(never)]
fn series(side: Side, n: usize, calls: usize) -> Result<usize, String> {
    let series = Series::of(n);
    if calls > series.changes.len() {
        return Err(format!("at most {} changes", series.changes.len()));
    }
    let mut rack = series.start();
    measured(|| {
        for change in &series.changes[..calls] {
            black_box(side.change(&mut rack, change, series.words(change)));
        }
    });
    Ok(calls)
}

/// Runs of one text. Both sides must come to the same record and rack.
fn runs(side: Side, text: &Text, calls: usize) -> usize {
    let (mut rack, mut wanted) = ([0; RACK_BYTES], [0; RACK_BYTES]);
    let (mut space, mut record) = (vec![0; RECORD_SPACE], vec![0; RECORD_SPACE]);
    let came = side.run(&mut rack, text.bytes(), &mut space);
    let number = Side::Tuned.run(&mut wanted, text.bytes(), &mut record).0;
    assert_eq!((came.0, number), (0, 0), "a text that fits");
    assert!(rack == wanted && space == record, "another record or rack");
    measured(|| {
        for _ in 0..calls {
            black_box(side.run(&mut rack, black_box(text.bytes()), &mut space));
        }
    });
    calls * text.changes
}
