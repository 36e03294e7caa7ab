//! Lines of words against the plain program. The tuned program passes over
//! words of one digit eight and four at a time and over others one by one, so
//! the words are tried at every place of such a group and on its edges.

use reference::checks::random::Random;
use tuned::{RACK_BYTES, RECORD_SPACE};

/// The buffers of both programs. Only the start of the record spaces, which no
/// record here goes beyond, is made anew for each text.
struct Both {
    rack: [u8; RACK_BYTES],
    space: Vec<u8>,
    wanted_rack: Vec<u8>,
    wanted_space: Vec<u8>,
}

const START: usize = 1_024;

impl Both {
    fn start() -> Both {
        Both {
            rack: [7; RACK_BYTES],
            space: vec![8; RECORD_SPACE],
            wanted_rack: vec![7; RACK_BYTES],
            wanted_space: vec![8; RECORD_SPACE],
        }
    }

    /// Runs one text: the same outcome, record and rack. The answer is the
    /// number.
    fn run(&mut self, text: &[u8]) -> u32 {
        self.space[..START].fill(8);
        self.wanted_space[..START].fill(8);
        let came = tuned::run(&mut self.rack, text, &mut self.space);
        let wanted = reference::run(&mut self.wanted_rack, text, &mut self.wanted_space);
        let told = String::from_utf8_lossy(text);
        let figures = (wanted.number, wanted.line, wanted.length);
        assert_eq!((came.number, came.line, came.length), figures, "{told:?}");
        assert!(self.space == self.wanted_space, "another record: {told:?}");
        assert!(self.rack[..] == self.wanted_rack, "another rack: {told:?}");
        wanted.number
    }
}

/// A text whose second line brings these words, with a line after it. With two
/// boards the change may draw, and then the first word is read.
fn text(words: &[&str]) -> Vec<u8> {
    let words: String = words.iter().map(|word| format!(" {word}")).collect();
    format!("(rack (boards 2))\n(add (0 1) (draws{words}))\n(drop (1 0) (draws 5))\n").into_bytes()
}

/// One digit each, the numbers of words around those that are passed together.
const LENGTHS: [usize; 19] = [
    0, 1, 2, 3, 4, 5, 7, 8, 9, 11, 12, 13, 15, 16, 17, 24, 25, 127, 128,
];

fn digits(number: usize) -> Vec<&'static str> {
    let digits = ["0", "1", "2", "3", "4", "5", "6", "7", "8", "9"];
    (0..number).map(|k| digits[7 * k % 10]).collect()
}

/// What may stand in place of a word: longer numbers, such as have a leading
/// zero or are too high, nothing between two spaces, and bytes that are nearly
/// digits or spaces.
const OTHERS: [&str; 22] = [
    "10",
    "99",
    "00",
    "01",
    "09 ",
    "",
    " 1",
    "1234567",
    "12345678",
    "123456789",
    "1000000000",
    "3999999999",
    "4294967295",
    "4294967296",
    "10000000000",
    "0123456789",
    "/",
    ":",
    "1\t2",
    "1)",
    "\u{31a}",
    "1\r",
];

#[test]
fn another_word_at_every_place() {
    let mut both = Both::start();
    let mut numbers = [0; 6];
    for length in LENGTHS {
        numbers[both.run(&text(&digits(length))) as usize] += 1;
        for place in (0..length).filter(|place| place % 16 < 3 || length < 32) {
            for other in OTHERS {
                let mut words = digits(length);
                words[place] = other;
                numbers[both.run(&text(&words)) as usize] += 1;
            }
        }
    }
    assert!(numbers[0] > 1_000 && numbers[4] > 1_000, "{numbers:?}");
}

/// The text ends anywhere within the words, or its second line ends otherwise.
#[test]
fn every_end() {
    let mut both = Both::start();
    for length in LENGTHS {
        let whole = text(&digits(length));
        for end in 0..whole.len() {
            both.run(&whole[..end]);
        }
        let line = whole.len() - "))\n(drop (1 0) (draws 5))\n".len();
        for end in [
            "))\r(", "))\r\n", ")\n", ")))\n", " ))\n", "0))\n", " 0))\n", " 00))\n", "\n",
        ] {
            both.run(&[&whole[..line], end.as_bytes()].concat());
        }
    }
}

/// Every byte in every place of seventeen words, and of the line's head.
#[test]
fn every_byte() {
    let mut both = Both::start();
    let whole = text(&digits(17));
    for place in 18..whole.len() - "(drop (1 0) (draws 5))\n".len() {
        for byte in 0..=255 {
            let mut text = whole.clone();
            text[place] = byte;
            both.run(&text);
        }
    }
}

/// Lines of 120 to 140 words of one length, of which 128 are the most.
#[test]
fn numbers_of_words() {
    let mut both = Both::start();
    for number in 120..=140 {
        for word in ["3", "31", "314", "3141592", "31415926", "3141592653"] {
            let fits = both.run(&text(&vec![word; number]));
            assert_eq!(fits, if number > 128 { 4 } else { 0 }, "{number} {word}");
        }
    }
}

/// A word of up to eleven digits, mostly one.
fn word(random: &mut Random, most: usize) -> String {
    let length = match random.below(4) {
        0 => random.between(1, most),
        _ => 1,
    };
    (0..length)
        .map(|_| char::from(b'0' + random.below(10) as u8))
        .collect()
}

/// Two change lines with words of all lengths.
fn lines(random: &mut Random) -> Vec<u8> {
    let n = random.pick(&[1, 2, 3, 4, 9]);
    let mut text = format!("(rack (boards {n}))\n");
    let most = random.pick(&[1, 1, 2, 10, 11]);
    for _ in 0..2 {
        let name = random.pick(&["add", "add", "drop"]);
        let ends = [(); 2].map(|()| random.below(n + 1));
        let number = random.below(36);
        let words: Vec<String> = (0..number)
            .map(|_| format!(" {}", word(random, most)))
            .collect();
        let words = words.concat();
        text += &format!("({name} ({} {}) (draws{words}))\n", ends[0], ends[1]);
    }
    text.into_bytes()
}

/// Replaces a byte, puts one in or takes one out.
fn alter(random: &mut Random, text: &mut Vec<u8>) {
    let at = random.below(text.len());
    let byte = match random.below(6) {
        0 => random.bits() as u8,
        _ => random.pick(b" 0123456789 09)(\n\r"),
    };
    match random.below(3) {
        0 => text[at] = byte,
        1 => text.insert(at, byte),
        _ => _ = text.remove(at),
    }
}

#[test]
fn random_lines_whole_and_altered() {
    let mut both = Both::start();
    let mut random = Random::new(0x70_0000);
    let mut numbers = [0; 6];
    for round in 0..200_000 {
        let mut text = lines(&mut random);
        for _ in 0..round % 4 {
            alter(&mut random, &mut text);
        }
        numbers[both.run(&text) as usize] += 1;
    }
    assert!(numbers[0] > 10_000 && numbers[4] > 10_000, "{numbers:?}");
}
