//! Texts whose line 1 names the settings, against the plain program.

use reference::Settings;
use tuned::{RACK_BYTES, RECORD_SPACE};

/// Runs one text: the same outcome, record and rack. The answer is the number.
fn run(text: &str) -> u32 {
    let (mut mine, mut wanted) = ([7; RACK_BYTES], [7; RACK_BYTES]);
    let (mut space, mut record) = (vec![8; RECORD_SPACE], vec![8; RECORD_SPACE]);
    let came = tuned::run(&mut mine, text.as_bytes(), &mut space);
    let outcome = reference::run(&mut wanted, text.as_bytes(), &mut record);
    let figures = (outcome.number, outcome.line, outcome.length);
    assert_eq!((came.number, came.line, came.length), figures, "{text:?}");
    assert!(space == record, "another record: {text:?}");
    assert!(mine == wanted, "another rack: {text:?}");
    came.number
}

/// Hubs in a text: every vertex is linked to the first, which then loses its mate.
#[test]
fn texts_of_all_settings() {
    for Settings { growth, top } in Settings::all() {
        for n in [1, 2, 5, 12, 30] {
            let mut text = format!("(rack (boards {n}) (growth {growth}) (top {top}))\n");
            text.extend((1..n).map(|v| format!("(add (0 {v}) (draws {v} 1 2 3))\n")));
            text.extend((1..n).map(|v| format!("(drop ({v} 0) (draws {v} 1 2 3))\n")));
            assert_eq!(run(&text), 0, "{text}");
        }
    }
}

/// Numbers for the boards, the growth and the top level, in range and not.
#[test]
fn texts_of_other_settings() {
    let mut numbers = [0; 14];
    let any = [0, 1, 2, 3, 4, 8, 9, 255, 256, 257, 258, 259, u32::MAX];
    for (growth, top) in any.iter().flat_map(|g| any.map(|t| (g, t))) {
        for n in [0, 1, 256, 257, u32::MAX] {
            for rest in ["", "(add (0 1) (draws 0))\n", "(add (0 1) (draws))"] {
                let text = format!("(rack (boards {n}) (growth {growth}) (top {top}))\n{rest}");
                numbers[run(&text) as usize] += 1;
            }
        }
    }
    let met = [0, 4, 5, 13].map(|number| numbers[number]);
    assert!(met.iter().all(|&times| times > 50), "{numbers:?}");
}

/// Line 1 cut short anywhere, and with each byte replaced, left out or twice.
#[test]
fn first_lines_on_the_edge() {
    let whole = "(rack (boards 4) (growth 2) (top 3))\n(add (0 1) (draws 0))\n";
    for at in 0..whole.len() {
        run(&whole[..at]);
        let (before, after) = (&whole[..at], &whole[at + 1..]);
        run(&[before, after].concat());
        run(&[before, &whole[at..=at], &whole[at..]].concat());
        for byte in 0..128_u8 {
            run(&[before, &char::from(byte).to_string(), after].concat());
        }
    }
}
