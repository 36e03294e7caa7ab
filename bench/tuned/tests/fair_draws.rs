//! Fair draws against the plain program: words that are passed over, lists that end
//! early, and racks that stay.

#[path = "../../../tests/compare/src/asked.rs"]
mod asked;
#[path = "../../../tests/compare/src/racks.rs"]
mod racks;

use asked::Asked;
use racks::Kind;
use reference::calls::change_rack;
use reference::checks::random::Random;
use reference::checks::shortage::runs_out;
use reference::checks::stars::{star, MOST};
use reference::{Rack, Settings};
use tuned::RackBytes;

fn bytes(rack: &Rack) -> RackBytes {
    rack.to_bytes().try_into().expect("a rack's length")
}

/// A change made by both forms of the tuned program on a copy of these bytes, which
/// are those of the rack: the same answer and bytes as the rack's after it.
fn one(before: &RackBytes, rack: &mut Rack, asked: &Asked) -> (reference::Answer, usize) {
    let Asked { code, a, b, words } = asked;
    let (wanted, new_pairs) = change_rack(rack, *code, *a, *b, words);
    let after = match wanted.number {
        0 => bytes(rack),
        _ => *before,
    };
    for change in [tuned::change, tuned::change_sound] {
        let mut mine = *before;
        let came = change(&mut mine, *code, *a, *b, words);
        let came = reference::Answer {
            number: came.number,
            draws: came.draws,
            falls: came.falls,
            pairs: came.pairs,
        };
        assert_eq!(came, wanted, "{asked:?}");
        assert!(mine == after, "{asked:?}: other bytes");
    }
    (wanted, new_pairs.len())
}

/// Draws from every number of neighbours, with words around the first that is passed
/// over.
#[test]
fn words_around_the_first_passed_over() {
    for k in 1..=MOST {
        let rack = star(k);
        let before = bytes(&rack);
        let t = (1_u64 << 32) / k as u64 * k as u64;
        let words = [0, t - 2, t - 1, t, t + 1, u64::from(u32::MAX)];
        for word in words
            .into_iter()
            .filter_map(|word| u32::try_from(word).ok())
        {
            for words in [vec![word], vec![word, 1], vec![u32::MAX, word, 2]] {
                let asked = drop_of(0, 1, words);
                one(&before, &mut rack.clone(), &asked);
            }
        }
    }
}

fn drop_of(a: u32, b: u32, words: Vec<u32>) -> Asked {
    Asked {
        code: 2,
        a,
        b,
        words,
    }
}

/// One word of the highest, at every place of lists about as long as a change may have
/// new pairs.
#[test]
fn one_high_word() {
    for k in [3, 6, 15, 30, 61] {
        let rack = star(k);
        let before = bytes(&rack);
        let half = (k + 2) / 2;
        for length in [half - 1, half, half + 1] {
            for place in 0..length {
                let mut words = vec![1; length];
                words[place] = u32::MAX;
                one(&before, &mut rack.clone(), &drop_of(0, 1, words));
            }
        }
    }
}

/// What changes did with their words.
#[derive(Debug, Default)]
struct Seen {
    passed_over: u64,
    ran_out: u64,
    ran_out_later: u64,
    with_few: u64,
}

/// Random changes on one rack, those that use words made again with lists that end near
/// the last word used.
fn walk(random: &mut Random, rack: &mut Rack, changes: usize, seen: &mut Seen) {
    for _ in 0..changes {
        let asked = Asked::any(random, rack, 35);
        let (old, before) = (rack.clone(), bytes(rack));
        let (answer, new_pairs) = one(&before, rack, &asked);
        let used = answer.draws as usize;
        seen.passed_over += u64::from(used > new_pairs);
        seen.with_few += u64::from(new_pairs > 0 && asked.words.len() < old.n / 2);
        if answer.number == 12 {
            let change = (asked.code, asked.a, asked.b);
            let later = runs_out(&old, change, &asked.words) > Some(0);
            seen.ran_out += 1;
            seen.ran_out_later += u64::from(later);
        }
        if used > 0 {
            other_lists(&old, &before, &asked, used);
        }
    }
}

fn other_lists(old: &Rack, before: &RackBytes, asked: &Asked, used: usize) {
    let words = &asked.words[..used];
    let more = [words, &[u32::MAX]].concat();
    for words in [&[][..], &words[..used - 1], words, &more] {
        let again = drop_of(asked.a, asked.b, words.to_vec());
        let again = Asked {
            code: asked.code,
            ..again
        };
        let (answer, _) = one(before, &mut old.clone(), &again);
        let number = if words.len() < used { 12 } else { 0 };
        assert_eq!(answer.number, number, "{again:?}");
    }
}

#[test]
fn random_lists() {
    let mut seen = Seen::default();
    let all: Vec<Settings> = Settings::all().collect();
    for seed in 0..12_000 {
        let mut random = Random::new(0x90_0000 + seed);
        let n = match random.below(2) {
            0 => racks::size(&mut random),
            _ => random.between(8, 40),
        };
        let kind = random.pick(&[
            Kind::Forks,
            Kind::Forks,
            Kind::Reached,
            Kind::Random,
            Kind::Dense,
        ]);
        let mut rack = match seed % 2 {
            0 => racks::rack(&mut random, n, kind),
            _ => {
                let settings = random.pick(&all);
                racks::rack_with(&mut random, settings, n, kind)
            }
        };
        walk(&mut random, &mut rack, 4, &mut seen);
    }
    let least = [
        seen.passed_over,
        seen.ran_out,
        seen.ran_out_later,
        seen.with_few,
    ];
    assert!(least.iter().all(|&times| times > 50), "{seen:?}");
}
