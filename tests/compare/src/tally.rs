//! How often each outcome came, of those that can come. A comparison in which
//! one of them never came has tried too little, and fails.

use crate::Verdict;
use std::collections::BTreeMap;
use std::fmt::{self, Debug, Display, Formatter};

/// The outcomes of one kind, each with how often it came.
#[derive(Clone)]
pub struct Seen<K> {
    what: &'static str,
    times: BTreeMap<K, u64>,
    /// One that came and isn't among them.
    other: Option<K>,
}

impl<K: Copy + Ord + Debug> Seen<K> {
    /// None came yet; these can come.
    pub fn of(what: &'static str, all: impl IntoIterator<Item = K>) -> Seen<K> {
        let times = all.into_iter().map(|one| (one, 0)).collect();
        let other = None;
        Seen { what, times, other }
    }

    pub fn note(&mut self, one: K) {
        match self.times.get_mut(&one) {
            Some(times) => *times += 1,
            None => self.other = Some(one),
        }
    }

    /// Adds those of a part of the whole.
    pub fn add(&mut self, part: &Seen<K>) {
        for (one, times) in &part.times {
            *self.times.entry(*one).or_default() += times;
        }
        self.other = self.other.or(part.other);
    }

    pub fn sum(&self) -> u64 {
        self.times.values().sum()
    }

    /// How many of them there are.
    pub fn kinds(&self) -> usize {
        self.times.len()
    }

    /// How often the rarest of them came.
    pub fn least(&self) -> u64 {
        self.times.values().copied().min().unwrap_or(0)
    }

    /// How often one of them came.
    pub fn times(&self, one: K) -> u64 {
        self.times.get(&one).copied().unwrap_or(0)
    }

    /// An error unless each of these came.
    pub fn came(&self, these: &[K]) -> Verdict {
        match these.iter().find(|&&one| self.times(one) == 0) {
            Some(one) => Err(format!("never met: {} {one:?}", self.what)),
            None => Ok(()),
        }
    }

    /// An error unless all of them came, and no other.
    pub fn all_came(&self) -> Verdict {
        if let Some(other) = self.other {
            return Err(format!("met, and can't be: {} {other:?}", self.what));
        }
        let all: Vec<K> = self.times.keys().copied().collect();
        self.came(&all)
    }

    /// An error unless these came and no other.
    pub fn only_came(&self, these: &[K]) -> Verdict {
        let other = |one: &&K| !these.contains(one) && self.times[one] > 0;
        match self.times.keys().find(other) {
            Some(one) => Err(format!("met: {} {one:?}", self.what)),
            None => self.came(these),
        }
    }
}

/// Those that came, each with how often.
impl<K: Debug> Display for Seen<K> {
    fn fmt(&self, f: &mut Formatter) -> fmt::Result {
        let came = self.times.iter().filter(|(_, times)| **times > 0);
        let came: Vec<String> = came
            .map(|(one, times)| format!("{one:?}: {times}"))
            .collect();
        write!(f, "{} {}", self.what, came.join(", "))
    }
}
