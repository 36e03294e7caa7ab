//! The names and values of this crate are those of `bindings/c/pairing.h`.

use pairing::Number;
use std::collections::BTreeMap;

const HEADER: &str = include_str!("../../c/pairing.h");
const EXPORTED: &str = include_str!("../src/exported.rs");

/// Each name with what this crate has under it.
macro_rules! named {
    ($of:ty: $($name:ident)*) => { [$((stringify!($name), <$of>::$name)),*] };
    ($($name:ident)*) => { [$((stringify!($name), pairing::$name as u32)),*] };
}

/// The header's names without their prefix, with their values: all but the name
/// that keeps it from being read twice.
fn defined() -> BTreeMap<&'static str, u32> {
    let names = HEADER.lines().filter_map(|line| {
        let mut words = line.strip_prefix("#define PAIRING_")?.split_whitespace();
        let name = words.next().filter(|&name| name != "H")?;
        let value = words.next().expect("a value");
        Some((name, value.parse().expect("a value in digits")))
    });
    names.collect()
}

fn numbers() -> [(&'static str, Number); 14] {
    named![Number: OK BAD_LENGTH LONG_TEXT SHORT_SPACE BAD_LINE BAD_VERTEX_COUNT UNSOUND
        BAD_CODE NO_VERTEX SAME_VERTEX EDGE_PRESENT EDGE_ABSENT TOO_FEW_WORDS BAD_SETTING]
}

#[test]
fn same_constants() {
    let others = named![RACK_BYTES ROSTERS ROSTER_BYTES MOST_VERTICES LEAST_GROWTH MOST_GROWTH MOST_TOP SHORT_GROWTH SHORT_TOP GROWTH_AT
        TOP_AT TEXT_LIMIT RECORD_SPACE STACK_RUN STACK_CHANGE STACK_CALL FREE ADD DROP];
    let numbers = numbers().map(|(name, number)| (name, number.0));
    let all: BTreeMap<&str, u32> = others.into_iter().chain(numbers).collect();
    assert_eq!(all, defined());
}

#[test]
fn numbers_tell_their_names() {
    for (name, number) in numbers() {
        let told = format!("{number:?}");
        let start = format!("{name} ({}: ", number.0);
        assert!(told.starts_with(&start), "{told}");
    }
}

/// The names of the functions, which stand before a bracket.
fn functions(text: &str) -> Vec<&str> {
    let words = text.split(|letter: char| !letter.is_alphanumeric() && !"_(".contains(letter));
    let calls = words
        .filter_map(|word| word.split_once('('))
        .map(|call| call.0);
    calls.filter(|name| name.starts_with("pairing_")).collect()
}

#[test]
fn same_functions() {
    let exported = functions(EXPORTED);
    assert_eq!(exported, functions(HEADER));
    assert_eq!(exported.len(), 9);
}
