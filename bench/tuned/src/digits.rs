//! Numbers in a text, found eight bytes at a time: byte k of the text is byte k
//! of a word, the lowest first.

/// Eight times the digit 0, what lifts every byte above 9 over 127, and the
/// top bit of each byte.
const ZEROS: u64 = 0x3030_3030_3030_3030;
const OVER_NINE: u64 = 0x7676_7676_7676_7676;
const TOP_BITS: u64 = 0x8080_8080_8080_8080;

/// The highest number, and the lowest of the highest 256, of ten digits as they
/// stand.
const HIGHEST: &[u8; 10] = b"4294967295";
const HIGH: &[u8; 10] = b"4294967040";

/// The first sixteen bytes, with zeros past the end.
#[inline(always)]
pub fn sixteen(text: &[u8]) -> [u64; 2] {
    match text.first_chunk() {
        Some(bytes) => halves(bytes),
        None => last(text),
    }
}

#[inline(always)]
pub fn halves(bytes: &[u8; 16]) -> [u64; 2] {
    let both = u128::from_le_bytes(*bytes);
    [both as u64, (both >> 64) as u64]
}

/// The same as `sixteen` where fewer bytes are left.
#[cold]
fn last(text: &[u8]) -> [u64; 2] {
    let mut bytes = [0; 16];
    bytes[..text.len()].copy_from_slice(text);
    halves(&bytes)
}

/// The bytes that are no digits, each marked by its top bit, up to the first of
/// them at least: what a byte carries into the next comes after it.
#[inline(always)]
fn no_digits(bytes: u64) -> u64 {
    let digits = bytes ^ ZEROS;
    (digits.wrapping_add(OVER_NINE) | digits) & TOP_BITS
}

/// How many bytes stand before the first that is marked.
#[inline(always)]
fn before(marks: u64) -> usize {
    marks.trailing_zeros() as usize / 8
}

/// The length of the number at the start of a text; none if there are no
/// digits, a leading zero, or more than the highest number. It is noted if it is one
/// of the highest 256.
#[inline(always)]
pub fn length(text: &[u8], high: &mut bool) -> Option<usize> {
    let [head, tail] = sixteen(text);
    let marks = no_digits(head);
    if marks == 0 {
        return long_length(text, 8 + before(no_digits(tail)), high);
    }
    let length = before(marks);
    let fits = length == 1 || (length > 1 && head as u8 != b'0');
    fits.then_some(length)
}

/// The same where eight digits or more have been found. Numbers of ten are in
/// order as their digits are, and most are told by the first.
#[inline(always)]
fn long_length(text: &[u8], length: usize, high: &mut bool) -> Option<usize> {
    let first = text[0];
    let fits = match length {
        8 | 9 => first != b'0',
        10 => first != b'0' && (first < b'4' || ten_fit(text, high)),
        _ => false,
    };
    fits.then_some(length)
}

/// The same of a number of ten digits.
#[cold]
fn ten_fit(text: &[u8], high: &mut bool) -> bool {
    *high |= &text[..10] >= HIGH;
    &text[..10] <= HIGHEST
}

/// The number at the start of a text, and what follows it. Vertices have at
/// most three digits, so that many are looked at one by one.
#[inline(always)]
pub fn number(text: &[u8]) -> Option<(u32, &[u8])> {
    let [head, _] = sixteen(text);
    let [a, b, c, d] = [0, 8, 16, 24].map(|bits| (head >> bits) as u8 ^ b'0');
    let [one, two, three] = [a, b, c].map(u32::from);
    let (value, length) = if b > 9 {
        (one, 1)
    } else if c > 9 {
        (10 * one + two, 2)
    } else if d > 9 {
        (100 * one + 10 * two + three, 3)
    } else {
        return longer(text);
    };
    if a > 9 || (a == 0 && length > 1) {
        return None;
    }
    Some((value, &text[length..]))
}

/// The same for a number of any length.
fn longer(text: &[u8]) -> Option<(u32, &[u8])> {
    let (digits, rest) = text.split_at(length(text, &mut false)?);
    let next = |value: u32, digit: &u8| 10 * value + u32::from(digit ^ b'0');
    Some((digits.iter().fold(0, next), rest))
}

#[cfg(test)]
mod tests {
    use super::length;

    /// The numbers around the lowest of the highest 256, and those past the highest.
    #[test]
    fn highest_numbers() {
        let highest = u64::from(u32::MAX);
        for number in highest - 1_000..highest + 1_000 {
            let (text, mut high) = (format!("{number} 5))\n"), false);
            let came = length(text.as_bytes(), &mut high);
            assert_eq!(came, (number <= highest).then_some(10), "{number}");
            assert_eq!(high, number > highest - 256, "{number}");
        }
        for text in ["1", "99999999 ", "3999999999 ", "4000000000 ", "999999999)"] {
            let mut high = false;
            assert!(length(text.as_bytes(), &mut high).is_some(), "{text}");
            assert!(!high, "{text}");
        }
    }
}
