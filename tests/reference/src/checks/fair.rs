//! Rows worked out by hand for each rule of "Fair draws" (document 02, W-206). Each
//! comes out otherwise if its rule is turned round.
//!
//! Most of them are on the fork: boards 0 and 3 are a pair at 1, and 0 is also
//! linked to the idle boards 1, 2 and 4. When 0-3 is dropped, both fall to 0, where
//! 0 draws from 1, 2 and 4; then 3 falls again. For three neighbours T is
//! 4,294,967,295, so of all words only the highest is passed over.

use super::cases::{play_passing, Case};
use super::makers::drawn;
use super::{holds, same, Tally, Verdict};
use crate::{change, Answer, Rack};

/// T for three neighbours, and the highest word.
const T3: u32 = 4_294_967_295;

/// Each row, and how many words it passes over.
pub fn hand_worked(tally: &mut Tally) -> Verdict {
    let rows = [
        (fork_dropped("below T it chooses", &[T3 - 1], 4), 0),
        (fork_dropped("T is passed over", &[T3, T3 - 3], 1), 1),
        (fork_dropped("the next is tried", &[T3, T3, T3, 4], 2), 3),
        (fork_dropped("spare words", &[2, T3, T3, 0], 4), 0),
        (fork_dropped("spare words", &[T3, 2, T3, 1], 4), 1),
        (fork_closed(&[T3], 4), 0),
        (fork_closed(&[T3 - 1, 0], 3), 0),
        (only_neighbour(), 0),
        (link_only("a drop that parts nobody", 2), 0),
        (link_only("an add by which nobody rises", 1), 0),
        (pair_dropped(), 0),
        (passed_between(), 2),
    ];
    for (row, passed) in &rows {
        tally.changes += 1;
        let told = |why| format!("fair draws, '{}', {:?}: {why}", row.name, row.words);
        play_passing(*passed, row).map_err(told)?;
    }
    Ok(format!("{} rows on fair draws: ok", rows.len()))
}

/// The fork as P4 of document 01 leaves it.
fn fork() -> Rack {
    drawn(5, &[(0, 3, 1)], &[(0, 1), (0, 2), (0, 3), (0, 4)])
}

/// "A word below T chooses place word mod k; a word of T or more is used up and
/// the next is tried." The drop of 0-3 from the fork, by which 0 draws y. T is a
/// multiple of three, so T - 1 chooses the last place and T - 3 the first.
fn fork_dropped(name: &'static str, words: &[u32], y: usize) -> Case {
    Case {
        name,
        rack: fork(),
        change: (2, 0, 3),
        words: words.to_vec(),
        new_pairs: vec![(0, y as u32)],
        falls: 3,
        after: drawn(5, &[(0, y, 0)], &[(0, 1), (0, 2), (0, 4)]),
    }
}

/// For four neighbours "the largest multiple of k that is at most 2^32" is 2^32
/// itself, so no word is passed over: 0 rises to 1 and draws y, one of 1, 2, 3, 4.
/// The highest word chooses the last place.
fn fork_closed(words: &[u32], y: usize) -> Case {
    Case {
        name: "a power of two",
        rack: drawn(5, &[(0, 1, 0)], &[(0, 1), (0, 2), (0, 3)]),
        change: (1, 4, 0),
        words: words.to_vec(),
        new_pairs: vec![(0, y as u32)],
        falls: 1,
        after: drawn(5, &[(0, y, 1)], &[(0, 1), (0, 2), (0, 3), (0, 4)]),
    }
}

/// One neighbour: every word chooses it.
fn only_neighbour() -> Case {
    Case {
        name: "one neighbour",
        rack: Rack::empty(9),
        change: (1, 8, 2),
        words: vec![u32::MAX],
        new_pairs: vec![(2, 8)],
        falls: 0,
        after: drawn(9, &[(2, 8, 0)], &[(2, 8)]),
    }
}

/// "A change is carried out only if its words suffice": one that needs none runs
/// with none. On the fork the link 0-1 goes, and nothing else; or it comes back.
fn link_only(name: &'static str, code: u32) -> Case {
    let without = drawn(5, &[(0, 3, 1)], &[(0, 2), (0, 3), (0, 4)]);
    let (rack, after) = match code {
        1 => (without, fork()),
        _ => (fork(), without),
    };
    Case {
        name,
        rack,
        change: (code, 0, 1),
        words: vec![],
        new_pairs: vec![],
        falls: 0,
        after,
    }
}

/// The same of a drop that parts a pair with nobody to draw.
fn pair_dropped() -> Case {
    Case {
        name: "a pair parted, with nobody to draw",
        rack: drawn(4, &[(0, 1, 3)], &[(1, 0)]),
        change: (2, 0, 1),
        words: vec![],
        new_pairs: vec![],
        falls: 8,
        after: Rack::empty(4),
    }
}

/// Two forks on the ends of a pair at 1: when 0-1 is dropped, both fall to 0, where
/// 0 draws one of 2, 3, 4, and 1 one of 5, 6, 7.
fn twin_forks() -> Rack {
    drawn(8, &[(0, 1, 1)], &FORKS)
}

const FORKS: [(usize, usize); 7] = [(0, 1), (0, 2), (0, 3), (0, 4), (1, 5), (1, 6), (1, 7)];

/// "The draws figure counts words used, passed-over ones included": those before
/// every draw of a change. They are as many as n div 2 here, for two new pairs.
fn passed_between() -> Case {
    Case {
        name: "words passed over before each draw",
        rack: twin_forks(),
        change: (2, 0, 1),
        words: vec![T3, 1, T3, 2],
        new_pairs: vec![(0, 3), (1, 7)],
        falls: 2,
        after: drawn(8, &[(0, 3, 0), (1, 7, 0)], &FORKS[1..]),
    }
}

/// A change that is turned back, with its number.
type Refused = (u32, Rack, (u32, u32, u32), &'static [u32]);

/// "Number 12 now means exactly that the change as defined runs out of words, it
/// remains last", and "otherwise the rack keeps its bytes".
pub fn refused_by_12(tally: &mut Tally) -> Verdict {
    let dropped = (2, 0, 3);
    let rows: [Refused; 14] = [
        (12, fork(), dropped, &[]),
        (12, fork(), dropped, &[T3]),
        (12, fork(), dropped, &[T3; 5]),
        (12, Rack::empty(5), (1, 0, 1), &[]),
        // The first draw is made; the second has no word, or only one passed over.
        (12, twin_forks(), (2, 0, 1), &[1]),
        (12, twin_forks(), (2, 0, 1), &[T3, 1, T3]),
        (12, twin_forks(), (2, 0, 1), &[1, T3, T3, T3]),
        // 12 is last: these find no word, or none that chooses, but are met before.
        (10, fork(), (1, 3, 0), &[]),
        (11, fork(), (2, 3, 1), &[]),
        (11, Rack::empty(5), (2, 0, 1), &[T3]),
        (9, fork(), (2, 3, 3), &[]),
        (8, fork(), (2, 3, 5), &[]),
        (7, fork(), (3, 0, 3), &[]),
        (7, fork(), (0, 0, 3), &[T3]),
    ];
    for (number, rack, (code, a, b), words) in &rows {
        let told = format!("fair draws, {number}: code {code}, boards {a} {b}, {words:?}");
        let before = rack.to_bytes();
        let mut bytes = before.clone();
        let answer = change(&mut bytes, *code, *a, *b, words);
        same(&told, answer, Answer::refused(*number))?;
        holds(&format!("{told}: nothing is written"), bytes == before)?;
        tally.note(&answer, 0);
    }
    Ok(format!("{} rows on running out of words: ok", rows.len()))
}
