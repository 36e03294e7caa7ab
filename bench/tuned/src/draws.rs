//! The words of a change, and the places that they choose: in a draw from k, words
//! from the largest multiple of k up to 2^32 on are passed over.

/// Whether each of these words chooses in any draw: a draw is from at most 255, so
/// only one of the highest 256 words may be passed over, and one more than the upper
/// 24 bits of such a word has a bit more.
#[inline(always)]
pub fn all_choose(words: &[u32]) -> bool {
    words.iter().fold(0, |any, &word| any | ((word >> 8) + 1)) >> 24 == 0
}

/// Where the places of draws come from.
pub trait Places {
    /// The place that is drawn from k.
    fn next(&mut self, k: u32) -> u32;
}

/// Words that all choose, at least as many as there may be draws.
pub struct Plain<W>(pub W);

impl<W: Iterator<Item = u32>> Places for Plain<W> {
    #[inline(always)]
    fn next(&mut self, k: u32) -> u32 {
        self.0.next().unwrap_or(0) % k
    }
}

/// Any words.
pub struct Fair<W> {
    words: W,
    /// How many words were passed over, and whether one was wanted and there was
    /// none. The places from then on have no meaning.
    pub passed: u64,
    pub ran_out: bool,
}

impl<W> Fair<W> {
    pub fn of(words: W) -> Fair<W> {
        Fair {
            words,
            passed: 0,
            ran_out: false,
        }
    }
}

impl<W: Iterator<Item = u32>> Places for &mut Fair<W> {
    fn next(&mut self, k: u32) -> u32 {
        // What is left over of 2^32, which is one more than the highest word.
        let over = (u32::MAX % k + 1) % k;
        let last = u32::MAX - over;
        for word in &mut self.words {
            if word <= last {
                return word % k;
            }
            self.passed += 1;
        }
        self.ran_out = true;
        0
    }
}

#[cfg(test)]
mod tests {
    use super::{all_choose, Fair, Places};

    /// One word at every place of lists of every length.
    #[test]
    fn words_that_all_choose() {
        for length in 1..40 {
            for (place, over) in (0..length).flat_map(|place| (0..260).map(move |k| (place, k))) {
                let mut words = vec![7; length];
                words[place] = u32::MAX - over;
                assert_eq!(all_choose(&words), over > 255, "{length} words, {words:?}");
            }
        }
        assert!(all_choose(&[]));
    }

    /// In a draw from k each place is chosen by one of the last k words that choose.
    #[test]
    fn last_words() {
        for k in 1..=255_u64 {
            let t = (1 << 32) / k * k;
            let words = (t - k..1 << 32).rev().map(|word| word as u32);
            let mut fair = Fair::of(words);
            let places: Vec<u32> = (0..k).map(|_| (&mut fair).next(k as u32)).collect();
            assert!((0..k as u32).rev().eq(places), "{k}");
            assert_eq!((fair.passed, fair.ran_out), ((1 << 32) - t, false), "{k}");
            (&mut fair).next(k as u32);
            assert!(fair.ran_out, "{k}");
        }
    }
}
