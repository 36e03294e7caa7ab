//! The words lent to a change, and the place that they choose in a draw: "A plain
//! remainder favours low places, and the course speaks of uniform choice."
//! (document 02, W-206)

/// The words lent, and how many of them are used.
pub struct Words<'a> {
    lent: &'a [u32],
    used: usize,
}

/// A draw found no further word: "the change as defined runs out of words"
/// (W-206).
#[derive(Clone, Copy, Debug, PartialEq, Eq)]
pub struct OutOfWords;

/// "For k neighbours let T be the largest multiple of k that is at most 2^32."
/// (W-206) It is 2^32 less what is left over when 2^32 is divided by k.
pub fn largest_multiple(k: usize) -> u64 {
    let all = 1 << 32;
    all - all % k as u64
}

/// "A word below T chooses place word mod k; a word of T or more is used up and
/// the next is tried." (W-206) The place of a word, if it chooses one.
pub fn place(word: u32, k: usize) -> Option<usize> {
    let chooses = u64::from(word) < largest_multiple(k);
    chooses.then_some(word as usize % k)
}

impl Words<'_> {
    /// None of these is used yet.
    pub fn lent(lent: &[u32]) -> Words<'_> {
        Words { lent, used: 0 }
    }

    /// "The draws figure counts words used, passed-over ones included" (W-206).
    pub fn used(&self) -> usize {
        self.used
    }

    /// "The next unused word is used."
    fn next(&mut self) -> Result<u32, OutOfWords> {
        let word = self.lent.get(self.used).ok_or(OutOfWords)?;
        self.used += 1;
        Ok(*word)
    }

    /// The place among k that is chosen by the first word to choose one.
    pub fn choose(&mut self, k: usize) -> Result<usize, OutOfWords> {
        loop {
            let word = self.next()?;
            if let Some(place) = place(word, k) {
                return Ok(place);
            }
        }
    }
}
