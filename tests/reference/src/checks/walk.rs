//! A list of changes on one rack, with the book kept beside it and all facts
//! looked at after each change.

use super::book::Book;
use super::random::Random;
use super::rival::{order_decides, order_may_decide};
use super::shortage::runs_out;
use super::{facts, holds, same, shape, Tally};
use crate::{change, change_with_pairs, sound, Answer, Rack, Settings};
use std::panic::{catch_unwind, AssertUnwindSafe};

/// An answer and its new pairs.
type Reply = (Answer, Vec<(u32, u32)>);

#[derive(Clone)]
pub struct Walk {
    pub rack: Vec<u8>,
    pub book: Book,
    name: String,
    steps: usize,
}

impl Walk {
    /// Starts from a sound rack; the name goes into messages.
    pub fn start(rack: Vec<u8>, name: String) -> Result<Walk, String> {
        let book = Book::open(&rack);
        let walk = Walk {
            rack,
            book,
            name,
            steps: 0,
        };
        walk.look().map_err(|why| walk.told("first rack", &why))?;
        Ok(walk)
    }

    /// One change with all that must hold of it.
    pub fn change(
        &mut self,
        code: u32,
        a: u32,
        b: u32,
        words: &[u32],
        tally: &mut Tally,
    ) -> Result<Answer, String> {
        let asked = format!("code {code}, boards {a} {b}, words {words:?}");
        self.steps += 1;
        self.try_change(code, a, b, words, tally)
            .map_err(|why| self.told(&asked, &why))
    }

    fn told(&self, asked: &str, why: &str) -> String {
        format!("{}, change {} ({asked}): {why}", self.name, self.steps)
    }

    fn try_change(
        &mut self,
        code: u32,
        a: u32,
        b: u32,
        words: &[u32],
        tally: &mut Tally,
    ) -> Result<Answer, String> {
        let before = self.rack.clone();
        let opened = Rack::from_bytes(&before).ok_or("the rack is not sound")?;
        let short = || runs_out(&opened, (code, a, b), words);
        let number = self.book.note(code, a, b, || short().is_some());
        let (answer, new_pairs) = self.call(code, a, b, words)?;
        same("number", answer.number, number)?;
        if number != 0 {
            same("answer", answer, Answer::refused(number))?;
            holds("a refused change draws nothing", new_pairs.is_empty())?;
            holds("a refused change writes nothing", self.rack == before)?;
        } else {
            self.look()?;
            same("bytes 4 to 7", &self.rack[4..8], &before[4..8])?;
            facts::of_answer(&self.rack, &self.book, words, &answer, &new_pairs)?;
            facts::falls(&before, &self.rack, &self.book, &answer, &new_pairs)?;
            self.look_at_start(&before, code, (a, b), words, &new_pairs)?;
            if let Some(most) = facts::most_at_level_0(&before, &self.book, code, (a, b)) {
                holds("few new pairs at level 0", new_pairs.len() <= most)?;
                tally.two_at_level_0 += u64::from(new_pairs.len() == 2);
            }
            let decided = self.decided(&opened, (code, a, b), words, &answer)?;
            tally.decided += u64::from(decided);
            tally.made_with_few += u64::from(words.len() < opened.n / 2);
        }
        let later = number == 12 && short() > Some(0);
        tally.ran_out_later += u64::from(later);
        self.count(tally, opened.settings, &answer, &new_pairs);
        Ok(answer)
    }

    /// The call itself; should it stop short, that is told like any failure.
    fn call(&mut self, code: u32, a: u32, b: u32, words: &[u32]) -> Result<Reply, String> {
        let rack = &mut self.rack;
        let call = AssertUnwindSafe(|| change_with_pairs(rack, code, a, b, words));
        catch_unwind(call).map_err(|_| String::from("the change stopped short"))
    }

    /// What must hold of the rack as it is, by the soundness of the paper, by
    /// the other way of looking at it, and by the book.
    fn look(&self) -> Result<(), String> {
        holds("the rack is sound", sound(&self.rack))?;
        shape::examine(&self.rack)?;
        facts::of_rack(&self.rack, &self.book)
    }

    /// What a change starts with: the first new pair of an add or of a drop
    /// that parts a pair. Where no board rises and no pair is parted, all bytes
    /// are known.
    fn look_at_start(
        &self,
        before: &[u8],
        code: u32,
        (a, b): (u32, u32),
        words: &[u32],
        new_pairs: &[(u32, u32)],
    ) -> Result<(), String> {
        let came = new_pairs.first().copied();
        if code == 2 && facts::mate(before, a) == b {
            let first = facts::first_of_drop(before, &self.book, (a, b), words);
            return holds("first new pair", first.is_none() || first == came);
        }
        if code == 1 {
            let first = facts::first_of_add(before, &self.book, (a, b), words);
            same("first new pair", came, first)?;
            if first.is_some() {
                return Ok(());
            }
        }
        holds("nothing is drawn", came.is_none())?;
        let plain = facts::only_link_changed(before, code == 1, a, b);
        holds("only the link changes", self.rack == plain)
    }

    /// Whether the order decides what the last change came to.
    fn decided(
        &self,
        before: &Rack,
        change: (u32, u32, u32),
        words: &[u32],
        answer: &Answer,
    ) -> Result<bool, String> {
        if !order_may_decide(answer) {
            return Ok(false);
        }
        let after = Rack::from_bytes(&self.rack).ok_or("the rack is not sound")?;
        Ok(order_decides(before, change, words, answer, &after))
    }

    fn count(&self, tally: &mut Tally, settings: Settings, answer: &Answer, new: &[(u32, u32)]) {
        tally.note(answer, new.len());
        for &(u, y) in new {
            let level = i32::from(self.rack[8 + u as usize]) - 1;
            if facts::mate(&self.rack, u) == y {
                tally.stands(settings, level);
            }
        }
    }

    /// One change picked at random, told on as it is tried: mostly one that
    /// is accepted. `hubs` is the number of boards that adds prefer.
    pub fn random_change(
        &mut self,
        random: &mut Random,
        adds: usize,
        hubs: usize,
        tally: &mut Tally,
    ) -> Result<Answer, String> {
        let (code, a, b) = self.pick(random, adds, hubs);
        let words = random.words_for(self.book.n as usize);
        let before = self.rack.clone();
        let answer = self.change(code, a, b, &words, tally)?;
        if answer.number == 0 && random.percent(10) {
            let used = &words[..answer.draws as usize];
            self.look_at_lists(random, before, (code, a, b), used, &answer)
                .map_err(|why| self.told("again", &why))?;
        }
        Ok(answer)
    }

    /// The same change with the words that it used and other words after them, or
    /// none: "Words beyond them are ignored." Without the last word that it used it
    /// gets 12, and "the rack keeps its bytes" (document 02, W-206).
    fn look_at_lists(
        &self,
        random: &mut Random,
        mut before: Vec<u8>,
        (code, a, b): (u32, u32, u32),
        used: &[u32],
        answer: &Answer,
    ) -> Result<(), String> {
        if let Some((_, fewer)) = used.split_last() {
            let mut rack = before.clone();
            let short = change(&mut rack, code, a, b, fewer);
            same("one word fewer", short, Answer::refused(12))?;
            holds("a refused change writes nothing", rack == before)?;
        }
        let mut other = used.to_vec();
        for _ in 0..random.pick(&[0, 1, 4]) {
            other.push(random.word());
        }
        let again = change(&mut before, code, a, b, &other);
        same("other spare words", again, *answer)?;
        holds("other spare words: bytes", before == self.rack)
    }

    fn pick(&self, random: &mut Random, adds: usize, hubs: usize) -> (u32, u32, u32) {
        let n = self.book.n as usize;
        let any = |random: &mut Random| random.below(n) as u32;
        if random.percent(2) {
            let odd = |random: &mut Random| random.pick(&[0, 1, n - 1, n, 2 * n]) as u32;
            return (random.below(4) as u32, odd(random), odd(random));
        }
        if self.book.links.is_empty() || random.percent(adds) {
            let hub = random.below(hubs.clamp(1, n)) as u32;
            let a = if random.percent(50) { hub } else { any(random) };
            let ends = [(); 4].map(|()| any(random));
            // Mostly an end to which no link is there yet.
            let free = |b: &&u32| a != **b && !self.book.has(a, **b);
            let b = ends.iter().find(free).unwrap_or(&ends[0]);
            return (1, a, *b);
        }
        let (a, b) = self.pick_link(random);
        if random.percent(50) {
            (2, a, b)
        } else {
            (2, b, a)
        }
    }

    /// A link that is there: any link, any pair, or a pair of the highest level
    /// there is.
    fn pick_link(&self, random: &mut Random) -> (u32, u32) {
        if random.percent(40) {
            let place = random.below(self.book.links.len());
            return *self.book.links.iter().nth(place).expect("a link");
        }
        let mut pairs = facts::pairs(&self.rack, &self.book);
        if random.percent(50) {
            let highest = self.rack[8..264].iter().max();
            pairs.retain(|(a, _)| Some(&self.rack[8 + *a as usize]) == highest);
        }
        random.pick(&pairs)
    }
}
