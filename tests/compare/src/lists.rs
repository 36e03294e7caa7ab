//! Lists that end just before, at and just after the last word that a change
//! needs, and lists of no words.

use crate::asked::Asked;
use crate::both::{same, same_bytes, Made, Twin};
use crate::tally::Seen;
use crate::Verdict;
use reference::Answer;

/// Where a list ends.
#[derive(Clone, Copy, Debug, PartialEq, Eq, PartialOrd, Ord)]
enum End {
    AtOnce,
    OneBefore,
    AtTheLast,
    OneAfter,
}

/// The changes made again, by where their list ends and their number.
pub struct Lists(Seen<(End, u32)>);

impl Lists {
    pub fn new() -> Lists {
        use End::*;
        let all = [(AtOnce, 12), (OneBefore, 12), (AtTheLast, 0), (OneAfter, 0)];
        Lists(Seen::of("end and number", all))
    }

    /// Makes a change again that has used some words: with one word fewer, and with
    /// none, it gets 12 and the rack stays; with no word beyond them, and with one
    /// that stands for no other, it comes to the same.
    pub fn end(&mut self, before: &Twin, asked: &Asked, made: &Made, after: &Twin) -> Verdict {
        let used = &asked.words[..made.answer.draws as usize];
        let more = [used, &[u32::MAX]].concat();
        let lists = [
            (End::AtOnce, &used[..0]),
            (End::OneBefore, &used[..used.len() - 1]),
            (End::AtTheLast, used),
            (End::OneAfter, &more[..]),
        ];
        for (end, words) in lists {
            let again = Asked {
                words: words.to_vec(),
                ..*asked
            };
            let mut twin = before.clone();
            let answer = twin.change(&again)?.answer;
            self.0.note((end, answer.number));
            let (wanted, left) = match end {
                End::AtOnce | End::OneBefore => (Answer::refused(12), before),
                End::AtTheLast | End::OneAfter => (made.answer, after),
            };
            same(&again, answer, wanted)?;
            same_bytes(&again, &twin.bytes, &left.bytes)?;
        }
        Ok(())
    }

    pub fn add(&mut self, part: &Lists) {
        self.0.add(&part.0);
    }

    pub fn print(&self) {
        println!(
            "{} changes made again with other lists, by {}",
            self.0.sum(),
            self.0
        );
    }

    pub fn all_came(&self) -> Verdict {
        self.0.all_came()
    }
}
