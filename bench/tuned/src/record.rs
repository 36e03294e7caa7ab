//! Writing a record, line after line, straight into the record space. A line is
//! put down in few large pieces; a piece may run over the end of its line, since
//! the next line covers that, but the end line has to be written to the byte.

use crate::change::Answer;
use crate::layout::{edges, mates, rank, vertices, RackBytes};
use std::mem::take;

pub struct Record<'a> {
    /// The space that no line has taken yet.
    free: &'a mut [u8],
}

impl<'a> Record<'a> {
    pub fn start(space: &'a mut [u8]) -> Record<'a> {
        Record { free: space }
    }

    /// How many bytes are not taken.
    pub fn left(&self) -> usize {
        self.free.len()
    }

    pub fn put(&mut self, bytes: &[u8]) {
        let (space, free) = take(&mut self.free).split_at_mut(bytes.len());
        space.copy_from_slice(bytes);
        self.free = free;
    }

    /// Puts a piece down, of which the first so many bytes are taken.
    #[inline(always)]
    fn piece<const L: usize>(&mut self, piece: [u8; L], taken: usize) {
        let free = take(&mut self.free);
        free[..L].copy_from_slice(&piece);
        self.free = &mut free[taken..];
    }

    /// The line of one change.
    #[inline(always)]
    pub fn answer(&mut self, answer: &Answer) {
        let &Answer {
            number,
            draws,
            falls,
            pairs,
        } = answer;
        if number != 0 {
            self.piece(*b"(refused        ", 9);
            self.figure(number, *b")\n\0\0", 2);
        } else if draws > 9 || falls > 9 {
            self.long_answer(draws as u32, falls, pairs);
        } else {
            let mut line = *b"(done (draws 0) (falls 0) (pairs ";
            line[13] |= draws as u8;
            line[23] |= falls as u8;
            self.piece(line, line.len());
            self.figure(pairs, *b"))\n\0", 3);
        }
    }

    #[cold]
    fn long_answer(&mut self, draws: u32, falls: u32, pairs: u32) {
        self.piece(*b"(done (draws    ", 13);
        self.figure(draws, *b") (f", 4);
        self.piece(*b"alls    ", 5);
        self.figure(falls, *b") (p", 4);
        self.piece(*b"airs    ", 5);
        self.figure(pairs, *b"))\n\0", 3);
    }

    /// A figure, all of which are below 10,000, and up to four bytes after it,
    /// in one piece.
    #[inline(always)]
    fn figure(&mut self, number: u32, after: [u8; 4], length: usize) {
        let digit = |unit| u64::from(number / unit % 10);
        let (digits, count) = match number {
            0..=9 => (digit(1), 1),
            10..=99 => (digit(10) | digit(1) << 8, 2),
            100..=999 => (digit(100) | digit(10) << 8 | digit(1) << 16, 3),
            _ => (
                digit(1000) | digit(100) << 8 | digit(10) << 16 | digit(1) << 24,
                4,
            ),
        };
        let digits = digits | ZEROS >> (64 - 8 * count);
        let after = u64::from(u32::from_le_bytes(after)) << (8 * count);
        self.piece((digits | after).to_le_bytes(), count + length);
    }

    /// The pair lines by rising lower vertex, and the end line.
    pub fn ending(&mut self, rack: &RackBytes, pairs: u32) {
        for (v, &mate) in mates(rack)[..vertices(rack)].iter().enumerate() {
            // One more than the mate, which is 0 for a free vertex.
            if usize::from(mate.wrapping_add(1)) > v + 1 {
                self.pair(v as u8, mate, rank(rack, v as u8) - 1);
            }
        }
        let (twice, n) = (2 * u32::from(edges(rack)), vertices(rack) as u32);
        self.end(pairs, twice / n, twice % n);
    }

    /// The end line, made aside and then put down to the byte: the pairs, and
    /// the mean of the edges, so many whole ones a vertex and the rest.
    fn end(&mut self, pairs: u32, whole: u32, rest: u32) {
        let mut line = [0; 48];
        let mut aside = Record::start(&mut line);
        aside.piece(*b"(end (pairs ", 12);
        aside.figure(pairs, *b") (m", 4);
        aside.piece(*b"ean ", 4);
        aside.figure(whole, *b" \0\0\0", 1);
        aside.figure(rest, *b"))\n\0", 3);
        let length = 48 - aside.left();
        self.put(&line[..length]);
    }

    fn pair(&mut self, v: u8, mate: u16, level: u8) {
        self.piece(*b"(pair ( ", 7);
        self.figure(u32::from(v), *b" \0\0\0", 1);
        self.figure(u32::from(mate), *b") (l", 4);
        let mut rest = *b"evel 0))\n";
        rest[5] |= level;
        self.piece(rest, rest.len());
    }
}

/// Eight times the digit 0.
const ZEROS: u64 = 0x3030_3030_3030_3030;

#[cfg(test)]
mod tests {
    use super::{Answer, Record};

    /// What is put down, up to the byte where the next line begins.
    fn put(put: impl FnOnce(&mut Record)) -> String {
        let mut space = [0; 64];
        let mut record = Record::start(&mut space);
        put(&mut record);
        let length = 64 - record.left();
        String::from_utf8(space[..length].to_vec()).expect("a line")
    }

    #[test]
    fn lines_of_changes() {
        let figures = [0, 1, 9, 10, 11, 90, 99, 100, 128, 999, 1_000, 2_048, 9_999];
        for (draws, falls) in figures.iter().flat_map(|&d| figures.map(|f| (d, f))) {
            for pairs in figures {
                let answer = Answer {
                    number: 0,
                    draws: u64::from(draws),
                    falls,
                    pairs,
                };
                let wanted = format!("(done (draws {draws}) (falls {falls}) (pairs {pairs}))\n");
                assert_eq!(put(|record| record.answer(&answer)), wanted);
            }
        }
        for number in 8..=12 {
            let came = put(|record| record.answer(&Answer::refused(number)));
            assert_eq!(came, format!("(refused {number})\n"));
        }
    }

    #[test]
    fn lines_of_pairs() {
        for (v, mate) in (0..=255).flat_map(|v| (0..=255).map(move |mate| (v, mate))) {
            let level = (v ^ mate) as u8 % 4;
            let came = put(|record| record.pair(v as u8, mate, level));
            assert_eq!(came, format!("(pair ({v} {mate}) (level {level}))\n"));
        }
    }

    /// The end line writes no byte past its own.
    #[test]
    fn end_lines() {
        for (whole, rest) in (0..=255).flat_map(|w| (0..=255).map(move |r| (w, r))) {
            let pairs = (whole ^ rest) % 129;
            let mut space = [7; 64];
            let mut record = Record::start(&mut space);
            record.end(pairs, whole, rest);
            let length = 64 - record.left();
            let wanted = format!("(end (pairs {pairs}) (mean {whole} {rest}))\n");
            assert_eq!(&space[..length], wanted.as_bytes());
            assert!(space[length..].iter().all(|&byte| byte == 7), "{wanted}");
        }
    }
}
