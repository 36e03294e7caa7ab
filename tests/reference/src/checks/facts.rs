//! The facts that hold of a rack after a list of changes, with links and
//! neighbours taken from the book and levels and mates from the bytes.

use super::book::{links_in, Book};
use super::exact::{largest_pairing, smallest_cover, MOST_BOARDS};
use super::settings::limits;
use super::{holds, same};
use crate::{rosters, Answer};

fn level(rack: &[u8], v: u32) -> i32 {
    i32::from(rack[8 + v as usize]) - 1
}

/// The levels of a rack from 0 to its top level, each with its threshold: every fact
/// is looked at "with g and t for 4 and 3" (document 02, W-207).
fn thresholds(rack: &[u8]) -> impl Iterator<Item = (i32, usize)> {
    let limits = limits(rack).expect("settings in range");
    (0..).zip(limits.iter().copied())
}

/// The mate that a rack's bytes give a board.
pub fn mate(rack: &[u8], v: u32) -> u32 {
    let at = 264 + 2 * v as usize;
    u32::from(rack[at]) | u32::from(rack[at + 1]) << 8
}

/// "The pairs are the book's links whose ends name each other as mates".
pub fn pairs(rack: &[u8], book: &Book) -> Vec<(u32, u32)> {
    let named = |&(a, b): &(u32, u32)| mate(rack, a) == b && mate(rack, b) == a;
    book.links.iter().copied().filter(named).collect()
}

/// All facts of a rack and its book.
pub fn of_rack(rack: &[u8], book: &Book) -> Result<(), String> {
    // "the last rack's rows, read in the same way, must give the same links"
    holds(
        "the rows give the book's links",
        links_in(rack) == book.links,
    )?;
    let idle = |v: u32| mate(rack, v) == 65_535;
    for &(a, b) in &book.links {
        holds("no link has two idle ends", !(idle(a) && idle(b)))?;
    }
    mates(rack, book)?;
    counts(rack, book)?;
    if book.n <= MOST_BOARDS {
        standing(rack, book)?;
        bounds(rack, book)?;
    }
    Ok(())
}

/// The query for a level's boards counts those whose level byte tells of it.
fn standing(rack: &[u8], book: &Book) -> Result<(), String> {
    let levels = [-3, -2, -1, 0, 1, 2, 3, 4, 5];
    for (i, came) in levels.into_iter().zip(rosters(rack, levels)) {
        let boards = (0..book.n).filter(|&v| level(rack, v) == i).count();
        same(&format!("boards at {i}"), came, (0, boards as u32))?;
    }
    Ok(())
}

/// Mates are linked, name each other and stand on one level.
fn mates(rack: &[u8], book: &Book) -> Result<(), String> {
    for v in 0..book.n {
        let w = mate(rack, v);
        if w == 65_535 {
            same("level of an idle board", level(rack, v), -1)?;
            continue;
        }
        holds("a mate is a board", w < book.n)?;
        holds("mates are linked", book.has(v, w))?;
        same("mate of a mate", mate(rack, w), v)?;
        same("level of a mate", level(rack, w), level(rack, v))?;
        holds(
            "a board with a mate is at 0 to t",
            thresholds(rack).any(|(j, _)| j == level(rack, v)),
        )?;
    }
    Ok(())
}

/// Every count at j from 0 to t, from the book's links, is below g^j.
fn counts(rack: &[u8], book: &Book) -> Result<(), String> {
    for (j, limit) in thresholds(rack) {
        let mut below = vec![0; book.n as usize];
        for &(a, b) in &book.links {
            below[a as usize] += usize::from(level(rack, b) < j);
            below[b as usize] += usize::from(level(rack, a) < j);
        }
        let over = (0..book.n).find(|&v| level(rack, v) < j && below[v as usize] >= limit);
        same("board with a count over its threshold", over, None)?;
    }
    Ok(())
}

/// The pairs are at least half of a largest pairing and at most a smallest
/// cover.
fn bounds(rack: &[u8], book: &Book) -> Result<(), String> {
    let links: Vec<(u32, u32)> = book.links.iter().copied().collect();
    let held = pairs(rack, book).len() as u32;
    let largest = largest_pairing(book.n, &links);
    let cover = smallest_cover(book.n, &links);
    holds(
        "twice the pairs reach a largest pairing",
        2 * held >= largest,
    )?;
    holds("the pairs are at most a largest pairing", held <= largest)?;
    holds("the pairs are at most a smallest cover", held <= cover)
}

/// The facts of an accepted change's answer: its pairs, its draws and its new
/// pairs. "the limit of half the boards now concerns new pairs in a change, and the
/// figure need no longer equal their number" (document 02, W-206); each of them
/// uses a word, and no word is used that isn't lent.
pub fn of_answer(
    rack: &[u8],
    book: &Book,
    words: &[u32],
    answer: &Answer,
    new_pairs: &[(u32, u32)],
) -> Result<(), String> {
    same("pairs", answer.pairs, pairs(rack, book).len() as u32)?;
    let (new, lent) = (new_pairs.len() as u64, words.len() as u64);
    let most = u64::from(book.n / 2);
    holds("new pairs are at most n div 2", new <= most)?;
    holds("each new pair uses a word", new <= answer.draws)?;
    holds("no more words are used than lent", answer.draws <= lent)?;
    let mut boards: Vec<u32> = new_pairs.iter().flat_map(|&(u, y)| [u, y]).collect();
    boards.sort_unstable();
    let twice = boards.windows(2).any(|two| two[0] == two[1]);
    holds("no board is in two new pairs", !twice)
}

/// The neighbours below level j, by the book and the levels of these bytes.
fn neighbours(rack: &[u8], book: &Book, v: u32, j: i32) -> Vec<u32> {
    let low = (0..book.n).filter(|&w| level(rack, w) < j);
    low.filter(|&w| w != v && book.has(v, w)).collect()
}

/// The board that a draw chooses. All 2^32 words go round the k places in turn;
/// the first word that isn't of the last round, if that one ends early, tells the
/// place. None if there is no such word.
fn chosen(below: &[u32], words: &[u32]) -> Option<u32> {
    let k = below.len() as u64;
    let rounds = (1 << 32) / k;
    let word = words.iter().find(|&&word| u64::from(word) / k < rounds)?;
    Some(below[*word as usize % below.len()])
}

/// The level that an add reaches, if any, and the riser, worked out from the book
/// after it and the levels before it.
fn reached(before: &[u8], book: &Book, (a, b): (u32, u32)) -> Option<(i32, u32)> {
    let mut best: Option<(i32, u32)> = None;
    for (j, limit) in thresholds(before) {
        for v in [a.max(b), a.min(b)] {
            let above = j > level(before, a) && j > level(before, b);
            if above && neighbours(before, book, v, j).len() >= limit {
                // The last one found is the highest level's lower number.
                best = Some((j, v));
            }
        }
    }
    best
}

/// The first rise of an add: the new pair of the riser and the board chosen by the
/// words, or none if no level is reached.
pub fn first_of_add(
    before: &[u8],
    book: &Book,
    ends: (u32, u32),
    words: &[u32],
) -> Option<(u32, u32)> {
    let (j, riser) = reached(before, book, ends)?;
    let below = neighbours(before, book, riser, j);
    Some((riser, chosen(&below, words)?))
}

/// The most new pairs of a change that begins at level 0: one if a board rises
/// to it, and two if a pair is parted there. None if it begins elsewhere.
pub fn most_at_level_0(before: &[u8], book: &Book, code: u32, (a, b): (u32, u32)) -> Option<usize> {
    if code == 1 {
        let (level, _) = reached(before, book, (a, b))?;
        return (level == 0).then_some(1);
    }
    let parted = mate(before, a) == b && level(before, a) == 0;
    parted.then_some(2)
}

/// The first new pair of a drop that parts a and b, if the lower of them has
/// neighbours enough to stay on its level: it draws before anything else.
pub fn first_of_drop(
    before: &[u8],
    book: &Book,
    (a, b): (u32, u32),
    words: &[u32],
) -> Option<(u32, u32)> {
    let (v, i) = (a.min(b), level(before, a));
    let below = neighbours(before, book, v, i);
    let stays = thresholds(before).any(|(j, limit)| j == i && below.len() >= limit);
    stays
        .then(|| chosen(&below, words))
        .flatten()
        .map(|y| (v, y))
}

/// The falls of an accepted change are at most t+1 a board. A board in no new pair
/// never rises, so it falls as far as its level has gone down; one that is in a new
/// pair falls at most from where it was to -1.
pub fn falls(
    before: &[u8],
    after: &[u8],
    book: &Book,
    answer: &Answer,
    new_pairs: &[(u32, u32)],
) -> Result<(), String> {
    let (mut least, mut most) = (0, 0);
    for v in 0..book.n {
        let down = level(before, v) - level(after, v);
        if new_pairs.iter().any(|&(u, y)| u == v || y == v) {
            most += level(before, v) + 1;
        } else {
            holds("only a board in a new pair rises", down >= 0)?;
            least += down;
        }
    }
    let (falls, all) = (answer.falls as i32, thresholds(before).count() as i32);
    holds("the falls that are seen", least <= falls)?;
    holds("the falls that there may be", falls <= least + most)?;
    holds("at most t+1 falls a board", falls <= all * book.n as i32)
}

/// The bytes of a rack after a link was put in or taken out and nothing else
/// happened: the link number, one row bit and the counts of both ends.
pub fn only_link_changed(before: &[u8], add: bool, a: u32, b: u32) -> Vec<u8> {
    let mut rack = before.to_vec();
    let one = |byte: u8| if add { byte + 1 } else { byte - 1 };
    let links = u16::from_le_bytes([rack[2], rack[3]]);
    let links = if add { links + 1 } else { links - 1 };
    rack[2..4].copy_from_slice(&links.to_le_bytes());
    for (v, w) in [(a, b), (b, a)] {
        let bit = 1 << (w % 8);
        let row = &mut rack[(1800 + 32 * v + w / 8) as usize];
        // "the owner is the end of higher level, on equal levels the lower
        // number."
        let (own, other) = (level(before, v), level(before, w));
        if add && (own > other || (own == other && v < w)) {
            *row |= bit;
        }
        if !add {
            *row &= !bit;
        }
        let above = own.max(other) + 1;
        for (j, _) in thresholds(before).filter(|&(j, _)| j >= above) {
            let count = &mut rack[(776 + 4 * v) as usize + j as usize];
            *count = one(*count);
        }
    }
    rack
}
