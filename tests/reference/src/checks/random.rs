//! A small repeatable source of random numbers (splitmix64).

use crate::Settings;

pub struct Random {
    state: u64,
}

impl Random {
    pub fn new(seed: u64) -> Random {
        Random { state: seed }
    }

    /// 64 random bits.
    pub fn bits(&mut self) -> u64 {
        self.state = self.state.wrapping_add(0x9e37_79b9_7f4a_7c15);
        let mut mixed = self.state;
        mixed = (mixed ^ (mixed >> 30)).wrapping_mul(0xbf58_476d_1ce4_e5b9);
        mixed = (mixed ^ (mixed >> 27)).wrapping_mul(0x94d0_49bb_1331_11eb);
        mixed ^ (mixed >> 31)
    }

    /// A number from 0 to k-1.
    pub fn below(&mut self, k: usize) -> usize {
        (self.bits() % k as u64) as usize
    }

    /// A number from low to high, both possible.
    pub fn between(&mut self, low: usize, high: usize) -> usize {
        low + self.below(high - low + 1)
    }

    /// Yes in so many of a hundred cases.
    pub fn percent(&mut self, share: usize) -> bool {
        self.below(100) < share
    }

    pub fn pick<T: Copy>(&mut self, among: &[T]) -> T {
        among[self.below(among.len())]
    }

    pub fn shuffle<T>(&mut self, list: &mut [T]) {
        for last in (1..list.len()).rev() {
            list.swap(last, self.below(last + 1));
        }
    }

    /// Settings of a rack: 4 and 3 in half of the cases, and otherwise any.
    pub fn settings(&mut self) -> Settings {
        if self.percent(50) {
            return Settings::SHORT;
        }
        Settings {
            growth: self.between(2, 8),
            top: self.below(4) as i32,
        }
    }

    /// A draw word: mostly any, at times small.
    pub fn word(&mut self) -> u32 {
        match self.below(4) {
            0 => self.below(6) as u32,
            _ => self.bits() as u32,
        }
    }

    /// One of the highest words, which are those passed over.
    pub fn high_word(&mut self) -> u32 {
        let most = self.pick(&[1, 1, 4, 16, 256]);
        u32::MAX - self.below(most) as u32
    }

    /// Words for a change of n boards: mostly at least as many as there may be new
    /// pairs, at times few or none; and mostly none of the highest, at times some of
    /// them or only those.
    pub fn words_for(&mut self, n: usize) -> Vec<u32> {
        let half = n / 2;
        let length = match self.below(20) {
            0 => self.below(3),
            1 => self.below(half + 1),
            2..=4 => half + self.below(n + 12),
            _ => half + self.below(3),
        };
        let high = self.pick(&[0, 0, 0, 0, 5, 30, 60, 100, 100]);
        let mut words = Vec::new();
        for _ in 0..length {
            let one = self.percent(high);
            words.push(if one { self.high_word() } else { self.word() });
        }
        words
    }
}
