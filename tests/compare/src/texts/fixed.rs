//! The runs whose outcome the documents state: the worked example, P12 as document
//! 02 changes it, and P13.

use super::lengths::exact;
use super::Case;
use reference::TEXT_LIMIT;

/// The worked example, as the program has it stored.
const EXAMPLE: &str = include_str!("../../../../crates/rack/stdin");
const EXAMPLE_RECORD: &str = include_str!("../../../../crates/rack/stdout");

/// A run with the number, the line and, where it is short, the record stated.
pub struct Stated {
    pub name: &'static str,
    pub case: Case,
    pub number: u32,
    pub line: usize,
    pub record: Option<&'static str>,
}

pub fn stated() -> Vec<Stated> {
    let of = |name, text: Vec<u8>, number, line| Stated {
        name,
        case: Case::of(text),
        number,
        line,
        record: None,
    };
    vec![
        Stated {
            record: Some(EXAMPLE_RECORD),
            ..of("the worked example", EXAMPLE.into(), 0, 0)
        },
        Stated {
            record: Some("(end (pairs 0))\n"),
            ..of("P12, empty text", vec![], 0, 0)
        },
        of("a line feed alone", vec![b'\n'], 4, 1),
        of("P13, 16,384 bytes", exact(0, TEXT_LIMIT), 0, 0),
        of("P13, 16,385 bytes", exact(0, TEXT_LIMIT + 1), 2, 0),
        of("P13, 16,385 line feeds", vec![b'\n'; TEXT_LIMIT + 1], 2, 0),
    ]
}
