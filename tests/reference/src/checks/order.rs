//! A row for each rule of "First idle, first served" (document 02, W-203): small
//! racks, found by a search, that come out otherwise if that one rule is turned
//! round. Each is worked out by hand from the sentence that it stands for.

use super::cases::{play, Case};
use super::makers::drawn;
use super::rival::order_decides;
use super::{holds, same, Tally, Verdict};
use crate::calls::change_rack;

/// Each row, and whether it comes out otherwise with the lowest number first.
pub fn first_served(tally: &mut Tally) -> Verdict {
    let rows = [
        (longest_waiting(), true),
        (lower_end_of_a_drop(), false),
        (mates_of_an_add(), true),
        (mates_of_a_fall(), true),
        (fallen_before_risers(), true),
        (fallen_at_the_end(), true),
        (drawn_waits_no_more(), false),
        (risen_waits_no_more(), false),
    ];
    holds("the queues are looked at", cfg!(debug_assertions))?;
    for (row, decided) in &rows {
        tally.changes += 1;
        let told = |why| format!("order, '{}': {why}", row.name);
        play(row).map_err(told)?;
        let (mut after, (code, a, b)) = (row.rack.clone(), row.change);
        let (answer, _) = change_rack(&mut after, code, a, b, &row.words);
        let other = order_decides(&row.rack, row.change, &row.words, &answer, &after);
        same("otherwise by number", other, *decided).map_err(told)?;
    }
    Ok(format!("{} rows on the order: ok", rows.len()))
}

/// "Among waiting boards of the highest level, the one that has waited at that
/// level longest is taken, in place of the lowest number."
///
/// 2 and 3 fall to 1 and then to 0. By the last of these falls 5 rises to 1 and
/// draws 0, and its mate 1 waits behind 2 and 3. So 2 draws 4, which is also the
/// only board that 1 could draw; 3 falls, and 1 draws 3.
fn longest_waiting() -> Case {
    let loose = [(1, 4), (2, 4), (3, 1), (3, 5), (5, 0), (5, 4)];
    Case {
        name: "the longest waiting is taken",
        rack: drawn(
            6,
            &[(1, 5, 0), (2, 3, 2)],
            &[&loose[..], &[(5, 1), (2, 3)]].concat(),
        ),
        change: (2, 2, 3),
        words: vec![0, 0, 1],
        new_pairs: vec![(5, 0), (2, 4), (1, 3)],
        falls: 5,
        after: drawn(
            6,
            &[(0, 5, 1), (2, 4, 0), (1, 3, 0)],
            &[(5, 0), (5, 1), (5, 3), (5, 4), (2, 4), (4, 1), (1, 3)],
        ),
    }
}

/// "Parting by a drop puts the lower number first." Also if it is named last.
///
/// 0 draws 2, which 1 would have drawn; 1 falls.
fn lower_end_of_a_drop() -> Case {
    Case {
        name: "the lower end of a drop is first",
        rack: drawn(3, &[(0, 1, 0)], &[(0, 1), (0, 2), (1, 2)]),
        change: (2, 1, 0),
        words: vec![0],
        new_pairs: vec![(0, 2)],
        falls: 1,
        after: drawn(3, &[(0, 2, 0)], &[(0, 2), (2, 1)]),
    }
}

/// "A riser's former mate comes before the chosen board's former mate." In an
/// add:
///
/// 3 rises to 1 and draws 1. Its former mate 4 is first and draws 0; then 2, the
/// former mate of 1, falls. Had 2 fallen first, 4 would have drawn it.
fn mates_of_an_add() -> Case {
    let loose = [(3, 0), (3, 2), (4, 0), (4, 2)];
    let before = [&loose[..], &[(1, 2), (3, 4)]].concat();
    Case {
        name: "the riser's mate before the chosen board's, in an add",
        rack: drawn(5, &[(1, 2, 0), (3, 4, 0)], &before),
        change: (1, 1, 3),
        words: vec![1, 3],
        new_pairs: vec![(3, 1), (4, 0)],
        falls: 1,
        after: drawn(
            5,
            &[(1, 3, 1), (0, 4, 0)],
            &[&before[..], &[(3, 1)]].concat(),
        ),
    }
}

/// The same of a board that rises when another falls:
///
/// 0 and 5 fall to 0, and by the second fall 2 rises to 1 and draws 1. 0 and 5
/// fall again; then 4, the riser's former mate, draws 0, and 3, the former mate
/// of 1, which would have drawn 0 too, falls.
fn mates_of_a_fall() -> Case {
    let pairs = [(0, 5, 1), (1, 3, 0), (2, 4, 0)];
    let loose = [(0, 1), (0, 3), (0, 4), (1, 2), (3, 2), (5, 2)];
    let risen = [(2, 1), (2, 3), (2, 4), (2, 5)];
    Case {
        name: "the riser's mate before the chosen board's, in a fall",
        rack: drawn(6, &pairs, &[&loose[..], &[(0, 5), (3, 1), (2, 4)]].concat()),
        change: (2, 0, 5),
        words: vec![4, 3, 2],
        new_pairs: vec![(2, 1), (4, 0)],
        falls: 5,
        after: drawn(
            6,
            &[(1, 2, 1), (0, 4, 0)],
            &[&risen[..], &[(1, 0), (1, 3), (4, 0), (0, 3)]].concat(),
        ),
    }
}

/// "A board that falls joins the end of its new level before any rise that
/// follows the fall."
///
/// 0 and 2 fall to 0, and by the second fall 4 rises to 1 and draws 3; its
/// former mate 1 waits behind both. They fall again, so that 1 has two boards to
/// draw from: the second is 2. Before 2 it would have had only 0.
fn fallen_before_risers() -> Case {
    let loose = [(0, 1), (0, 4), (2, 1), (2, 4), (4, 3)];
    Case {
        name: "a fallen board is before the mates of those that rise by its fall",
        rack: drawn(
            5,
            &[(0, 2, 1), (1, 4, 0)],
            &[&loose[..], &[(2, 0), (1, 4)]].concat(),
        ),
        change: (2, 2, 0),
        words: vec![3, 3],
        new_pairs: vec![(4, 3), (1, 2)],
        falls: 4,
        after: drawn(
            5,
            &[(3, 4, 1), (1, 2, 0)],
            &[(4, 0), (4, 1), (4, 2), (4, 3), (1, 0), (1, 2)],
        ),
    }
}

/// The same sentence: it is the end that a fallen board joins, however long it
/// waited one level higher.
///
/// 0 stays at 1 and draws 1, whose former mate 5 waits at 0 from then on. 2 falls
/// to 0 and is behind it: 5 draws 3, and 2 falls again. Had 2 fallen again first,
/// 5 would have drawn it.
fn fallen_at_the_end() -> Case {
    let kept = [(0, 1), (0, 3), (0, 4), (0, 5), (5, 3)];
    Case {
        name: "a fallen board is behind those that waited at its new level",
        rack: drawn(
            6,
            &[(0, 2, 1), (1, 5, 0)],
            &[&kept[..], &[(0, 2), (2, 5), (5, 1)]].concat(),
        ),
        change: (2, 0, 2),
        words: vec![0, 4, 2],
        new_pairs: vec![(0, 1), (5, 3)],
        falls: 2,
        after: drawn(
            6,
            &[(0, 1, 1), (3, 5, 0)],
            &[&kept[..], &[(1, 5), (5, 2)]].concat(),
        ),
    }
}

/// "A board is waiting if it is idle at level 0 or more" (document 01), so one
/// that is drawn waits no more.
///
/// 3 rises to 1 and draws its own former mate 0. Nobody waits then.
fn drawn_waits_no_more() -> Case {
    Case {
        name: "a board that is drawn waits no more",
        rack: drawn(5, &[(0, 3, 0)], &[(0, 3), (3, 1), (3, 2)]),
        change: (1, 4, 3),
        words: vec![0, 3],
        new_pairs: vec![(3, 0)],
        falls: 0,
        after: drawn(5, &[(0, 3, 1)], &[(3, 0), (3, 1), (3, 2), (3, 4)]),
    }
}

/// So does one that rises.
///
/// 1 falls to 0; 3 rises to 1 and draws 0, and its former mate 5 waits behind 1.
/// 4 falls to 0, by which 5 rises to 1 and draws 2. Only 1 and 4 wait then, with
/// nobody to draw, and fall again.
fn risen_waits_no_more() -> Case {
    let kept = [(3, 0), (3, 5), (3, 6), (5, 2), (5, 6)];
    Case {
        name: "a board that rises waits no more",
        rack: drawn(
            7,
            &[(1, 4, 1), (3, 5, 0)],
            &[&kept[..], &[(1, 3), (1, 4), (1, 5), (4, 3), (4, 5)]].concat(),
        ),
        change: (2, 1, 4),
        words: vec![0, 1, 0],
        new_pairs: vec![(3, 0), (5, 2)],
        falls: 4,
        after: drawn(
            7,
            &[(0, 3, 1), (2, 5, 1)],
            &[&kept[..], &[(3, 1), (3, 4), (5, 1), (5, 4)]].concat(),
        ),
    }
}
