//! Every sound rack of few boards, with every change and words for each place.

use super::walk::Walk;
use super::{holds, same, shape, Tally, Verdict};
use crate::{sound, Rack, Settings};

/// Growths and top levels of which all racks of four boards are tried; those of up to
/// three boards are tried at all settings. Of four boards each has at most three
/// neighbours, so that with no growth above 3 a board rises to level 1.
const FOUR_BOARDS: [(usize, i32); 4] = [(4, 3), (2, 1), (2, 2), (3, 1)];

pub fn every_small_rack(tally: &mut Tally) -> Verdict {
    let earlier = tally.clone();
    let mut short = Vec::new();
    let mut all = 0;
    for settings in Settings::all() {
        let four = FOUR_BOARDS.contains(&(settings.growth, settings.top));
        for n in 1..=if four { 4 } else { 3 } {
            let mut found = 0;
            for pairing in pairings(settings, n) {
                found += racks_with(&pairing, tally)?;
            }
            let told = format!("sound racks of {n} boards, {settings:?}");
            same(&told, found, sound_racks(settings, n))?;
            all += found;
            if settings == Settings::SHORT {
                short.push(found);
            }
        }
    }
    same("those of the short form", &short, &vec![1, 9, 97, 6961])?;
    let tried = tally.since(&earlier, &[0, 9, 10, 11, 12])?;
    Ok(format!(
        "all {short:?} sound racks of 1, 2, 3, 4 boards, {all} of all settings, every change ({tried}): ok"
    ))
}

/// How many sound racks of up to four boards there are.
///
/// One is without pairs. A pair has t+1 levels and 2 owners, and of three or four
/// boards each idle one may be linked to either end. Of the two pairs of four boards,
/// linked in 4 places, either end may be the owner on equal levels.
///
/// This is so where no count can reach its threshold: boards have at most three
/// neighbours, so only that of level 1 matters, and only to those at level 0. With
/// growth 2 no board at level 0 has a neighbour below 1 beside its mate; with growth 3
/// it has at most one, which is for two pairs 17 choices: none, one of 4 places with 2
/// owners, or two of them that have no common board.
fn sound_racks(settings: Settings, n: usize) -> u64 {
    let levels = settings.top as u64 + 1;
    let at_0 = match (settings.top, settings.growth) {
        (0, _) => 4,
        (_, growth) => growth.min(4),
    };
    // The ways to link the idle boards to a pair at 0, and to link two pairs at 0.
    let (of_three, of_four, of_two) = match at_0 {
        2 => (1, 1, 1),
        3 => (4, 9, 17),
        _ => (4, 16, 81),
    };
    let two_pairs = of_two + (levels - 1) * 81 + levels * (levels - 1) * 16;
    match n {
        1 => 1,
        2 => 1 + levels * 2,
        3 => 1 + 3 * 2 * (of_three + (levels - 1) * 4),
        _ => 1 + 6 * 2 * (of_four + (levels - 1) * 16) + 3 * 2 * 2 * two_pairs,
    }
}

/// All racks of n boards without links, each with other pairs and levels: the
/// lowest board not yet spoken for stays idle or gets each higher one as mate
/// on each level.
fn pairings(settings: Settings, n: usize) -> Vec<Rack> {
    let mut done = Vec::new();
    let mut open = vec![(Rack::empty_with(settings, n), 0)];
    while let Some((rack, v)) = open.pop() {
        if v == n {
            done.push(rack);
            continue;
        }
        open.push((rack.clone(), v + 1));
        for w in (v + 1..n).filter(|&w| rack.idle(v) && rack.idle(w)) {
            for level in 0..=settings.top {
                let mut paired = rack.clone();
                (paired.mate[v], paired.mate[w]) = (Some(w), Some(v));
                (paired.level[v], paired.level[w]) = (level, level);
                open.push((paired, v + 1));
            }
        }
    }
    done
}

/// Puts each set of links with each owner in, and tries all changes on those
/// racks that are sound.
fn racks_with(pairing: &Rack, tally: &mut Tally) -> Result<u64, String> {
    let n = pairing.n;
    let places: Vec<(usize, usize)> = (0..n).flat_map(|v| (0..v).map(move |w| (v, w))).collect();
    let mut found = 0;
    for code in 0..3u32.pow(places.len() as u32) {
        let mut rack = pairing.clone();
        let mut left = code;
        for &(v, w) in &places {
            rack.owner[v][w] = left % 3 == 1;
            rack.owner[w][v] = left % 3 == 2;
            left /= 3;
        }
        let bytes = rack.to_bytes();
        let looked = shape::examine(&bytes).is_ok();
        holds("both ways of looking agree", looked == sound(&bytes))?;
        if looked {
            let walk = Walk::start(bytes, format!("{rack:?}"))?;
            all_changes(&walk, tally)?;
            found += 1;
        }
    }
    Ok(found)
}

fn all_changes(walk: &Walk, tally: &mut Tally) -> Result<(), String> {
    let n = walk.book.n;
    for a in 0..n {
        for b in 0..n {
            // Three boards or fewer: also both orders and equal boards.
            if n <= 3 || a < b {
                each_place(walk, 1, a, b, tally)?;
                each_place(walk, 2, a, b, tally)?;
            }
        }
    }
    Ok(())
}

/// One change with words for each place: of at most three neighbours the words
/// 0, 1 and 2 give all places, and none of them is passed over. A list that the
/// change runs out of is tried again with one word more, so that no list has a
/// word that isn't used.
fn each_place(walk: &Walk, code: u32, a: u32, b: u32, tally: &mut Tally) -> Result<(), String> {
    let mut open: Vec<Vec<u32>> = vec![Vec::new()];
    while let Some(words) = open.pop() {
        let answer = walk.clone().change(code, a, b, &words, tally)?;
        let used = if answer.number == 0 { words.len() } else { 0 };
        same("draws", answer.draws as usize, used)?;
        if answer.number == 12 {
            let most = walk.book.n as usize / 2;
            holds("n div 2 words suffice", words.len() < most)?;
            let longer = |word: u32| [&words[..], &[word]].concat();
            open.extend([0, 1, 2].map(longer));
        }
    }
    Ok(())
}
