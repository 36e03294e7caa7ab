//! Cases worked out by hand for the places where the moves are easily taken
//! the wrong way.

use super::makers::drawn;
use super::{holds, same, Tally, Verdict};
use crate::{audit, change_with_pairs, Answer, Rack};

/// A hand-worked change: what goes in and what must come out.
pub struct Case {
    pub name: &'static str,
    pub rack: Rack,
    pub change: (u32, u32, u32),
    pub words: Vec<u32>,
    pub new_pairs: Vec<(u32, u32)>,
    pub falls: u32,
    pub after: Rack,
}

pub fn hand_worked(tally: &mut Tally) -> Verdict {
    let cases = [
        both_reach(),
        owner_on_equal_levels(),
        owner_by_level(),
        long_words(),
        higher_level_first(0),
        higher_level_first(1),
        scan_one_by_one(0),
        scan_one_by_one(1),
        hands_on_and_stays(),
        highest_waits_least(),
    ];
    for case in &cases {
        tally.changes += 1;
        play(case).map_err(|why| format!("hand-worked case '{}': {why}", case.name))?;
    }
    Ok(format!("{} cases worked by hand: ok", cases.len()))
}

/// Makes the change, which passes no word over, and looks at all that it must
/// come to.
pub fn play(case: &Case) -> Result<(), String> {
    play_passing(0, case)
}

/// The same of a change that passes so many words over.
pub fn play_passing(passed: usize, case: &Case) -> Result<(), String> {
    let mut bytes = case.rack.to_bytes();
    same("audit before", audit(&bytes), (0, true))?;
    let (code, a, b) = case.change;
    let (answer, pairs) = change_with_pairs(&mut bytes, code, a, b, &case.words);
    let wanted = Answer {
        number: 0,
        draws: (case.new_pairs.len() + passed) as u64,
        falls: case.falls,
        pairs: case.after.pairs().len() as u32,
    };
    same("new pairs", &pairs, &case.new_pairs)?;
    same("answer", answer, wanted)?;
    let after = Rack::from_bytes(&bytes).ok_or("the rack after it is not sound")?;
    same("settings", after.settings, case.rack.settings)?;
    same("levels", &after.level, &case.after.level)?;
    same("mates", &after.mate, &case.after.mate)?;
    holds("owners", after.owner == case.after.owner)?;
    same("audit after", audit(&case.after.to_bytes()), (0, true))
}

/// Both ends reach level 0: the lower number rises, in whichever order the
/// boards are named.
fn both_reach() -> Case {
    Case {
        name: "both ends reach the level",
        rack: Rack::empty(2),
        change: (1, 1, 0),
        words: vec![9],
        new_pairs: vec![(0, 1)],
        falls: 0,
        after: drawn(2, &[(0, 1, 0)], &[(0, 1)]),
    }
}

/// Nothing rises: the lower number owns the link, though named second.
fn owner_on_equal_levels() -> Case {
    let pairs = [(0, 1, 0), (2, 3, 0)];
    Case {
        name: "the owner on equal levels",
        rack: drawn(4, &pairs, &[(1, 0), (3, 2)]),
        change: (1, 2, 1),
        words: vec![0, 0],
        new_pairs: vec![],
        falls: 0,
        after: drawn(4, &pairs, &[(1, 0), (3, 2), (1, 2)]),
    }
}

/// Nothing rises: the end of higher level owns the link.
fn owner_by_level() -> Case {
    let pairs = [(0, 1, 0), (2, 3, 1)];
    Case {
        name: "the owner on other levels",
        rack: drawn(4, &pairs, &[(1, 0), (3, 2)]),
        change: (1, 1, 2),
        words: vec![0, 0],
        new_pairs: vec![],
        falls: 0,
        after: drawn(4, &pairs, &[(1, 0), (3, 2), (2, 1)]),
    }
}

/// Boards 0 and 3 fall to 0, where 0 has the neighbours 1, 2, 4 to draw from.
/// 2,147,483,649 is a multiple of three, so it draws board 1; its low 16 or 31
/// bits alone would lead to another. Board 3 falls on to -1.
fn long_words() -> Case {
    Case {
        name: "a word of 32 bits",
        rack: drawn(5, &[(0, 3, 1)], &[(0, 1), (0, 2), (0, 3), (0, 4)]),
        change: (2, 0, 3),
        words: vec![2_147_483_649, 0],
        new_pairs: vec![(0, 1)],
        falls: 3,
        after: drawn(5, &[(0, 1, 0)], &[(0, 1), (0, 2), (0, 4)]),
    }
}

/// Board 0 reaches level 0 only and board 5 reaches level 1: 5 rises. With
/// word 1 it takes board 1 away from board 4, which then falls.
fn higher_level_first(word: u32) -> Case {
    let (one, two, three) = ((1, 4), (2, 6), (3, 7));
    let before = [one, two, three, (1, 5), (2, 5), (3, 5)];
    let (y, falls) = (word as usize, word);
    let mut pairs = vec![(5, y, 1), (2, 6, 0), (3, 7, 0)];
    if word == 0 {
        pairs.push((1, 4, 0));
    }
    Case {
        name: "the higher level is taken before the lower number",
        rack: drawn(8, &[(1, 4, 0), (2, 6, 0), (3, 7, 0)], &before),
        change: (1, 0, 5),
        words: vec![word, 0, 0, 0],
        new_pairs: vec![(5, word)],
        falls,
        after: drawn(
            8,
            &pairs,
            &[one, two, three, (5, 0), (5, 1), (5, 2), (5, 3)],
        ),
    }
}

/// Board 0 falls from 1 and brings boards 2 and 3 to a count of 4 at level 1.
/// Board 2 comes first and rises, which takes board 3's count down again.
/// Word 0: 2 draws the fallen 0, and 3 stays (falls: 0, 1 twice, 4).
/// Word 1: 2 draws 3, and 0, 1, 4, 5 go down to -1.
fn scan_one_by_one(word: u32) -> Case {
    let loose = [(2, 3), (2, 4), (5, 2), (3, 5), (3, 7)];
    let mut before = vec![(0, 1), (0, 2), (0, 3)];
    before.extend(loose);
    let (y, falls, kept, links) = if word == 0 {
        let links = vec![(2, 0), (0, 3), (2, 3), (2, 4), (2, 5), (3, 5), (3, 7)];
        (0, 4, vec![(2, 0, 1), (3, 5, 0)], links)
    } else {
        let links = vec![(2, 0), (3, 0), (2, 3), (2, 4), (2, 5), (3, 5), (3, 7)];
        (3, 6, vec![(2, 3, 1)], links)
    };
    Case {
        name: "the scan looks at each board when its turn comes",
        rack: drawn(8, &[(0, 1, 1), (2, 4, 0), (3, 5, 0)], &before),
        change: (2, 1, 0),
        words: vec![word, 0, 0, 0],
        new_pairs: vec![(2, y)],
        falls,
        after: drawn(8, &kept, &links),
    }
}

/// Board 0 waits at 0, hands its link to board 4 on and then stays at 0.
fn hands_on_and_stays() -> Case {
    let paired = [(0, 1, 0), (4, 5, 0)];
    Case {
        name: "links are handed on before the test",
        rack: drawn(6, &paired, &[(0, 1), (0, 2), (1, 3), (0, 4), (4, 5)]),
        change: (2, 0, 1),
        words: vec![3, 8, 0],
        new_pairs: vec![(0, 2), (1, 3)],
        falls: 0,
        after: drawn(
            6,
            &[(0, 2, 0), (1, 3, 0), (4, 5, 0)],
            &[(0, 2), (1, 3), (4, 0), (4, 5)],
        ),
    }
}

/// Board 0 rises to 2 and draws board 2; its own mate 1 then waits at 0 and
/// board 2's mate 3 at 1. Board 3 is taken first and draws 19, then 1 draws 18.
fn highest_waits_least() -> Case {
    let mut links = vec![(0, 1), (0, 16), (0, 17), (1, 18)];
    let mut pairs = vec![(0, 1, 0)];
    for v in (2..16).step_by(2) {
        pairs.push((v, v + 1, 1));
        links.push((v, v + 1));
    }
    links.extend((2..14).map(|v| (v, 0)));
    links.extend((19..23).map(|w| (3, w)));
    let rack = drawn(23, &pairs, &links);
    let mut after = vec![(0, 2, 2), (3, 19, 1), (1, 18, 0)];
    after.extend_from_slice(&pairs[2..]);
    let mut owned = vec![(0, 1), (0, 16), (0, 17), (1, 18), (0, 14)];
    owned.extend((4..16).step_by(2).map(|v| (v, v + 1)));
    owned.extend((2..14).map(|v| (0, v)));
    owned.extend((19..23).map(|w| (3, w)));
    owned.push((2, 3));
    Case {
        name: "the highest level is taken first",
        rack,
        change: (1, 14, 0),
        words: vec![1, 4, 7, 0, 0, 0, 0, 0, 0, 0, 0],
        new_pairs: vec![(0, 2), (3, 19), (1, 18)],
        falls: 0,
        after: drawn(23, &after, &owned),
    }
}
