//! Runs of the tuned program against those of the plain one: all texts that the core
//! is tried on.

#[path = "../../../tests/compare/src/asked.rs"]
mod asked;
#[path = "../../../tests/compare/src/texts/mod.rs"]
mod texts;

use tuned::RACK_BYTES;

/// One text: the same outcome, the same record space and the same rack.
fn one_text(case: &texts::Case, told: &str) -> u32 {
    let mut wanted_rack = vec![7; RACK_BYTES];
    let mut wanted_space = vec![8; case.space];
    let wanted = reference::run(&mut wanted_rack, &case.text, &mut wanted_space);
    let mut rack = [7; RACK_BYTES];
    let mut space = vec![8; case.space];
    let came = tuned::run(&mut rack, &case.text, &mut space);
    let figures = (wanted.number, wanted.line, wanted.length);
    assert_eq!((came.number, came.line, came.length), figures, "{told}");
    assert!(space == wanted_space, "{told}: another record");
    assert!(rack[..] == wanted_rack[..], "{told}: another rack");
    wanted.number
}

/// All texts that the core is tried on, but for rack buffers of another length,
/// which this program isn't made for.
#[test]
fn texts() {
    let mut top = -1;
    for family in texts::families() {
        let mut numbers = [0; 14];
        // Number 1 is the one for a rack buffer of another length.
        numbers[1] = 1;
        for place in 0..family.cases {
            let case = (family.make)(place);
            if case.rack != RACK_BYTES {
                continue;
            }
            let told = format!("{}, case {place}", family.name);
            numbers[one_text(&case, &told) as usize] += 1;
            top = top.max(case.top);
        }
        assert_eq!(family.missed(&numbers), None, "{}", family.name);
    }
    assert_eq!(top, 3, "the highest level reached");
}

#[test]
fn texts_with_a_stated_outcome() {
    for run in texts::stated() {
        one_text(&run.case, run.name);
        let mut space = vec![0; run.case.space];
        let came = tuned::run(&mut [0; RACK_BYTES], &run.case.text, &mut space);
        let stated = (run.number, run.line);
        assert_eq!((came.number, came.line), stated, "{}", run.name);
        if let Some(record) = run.record {
            assert_eq!(&space[..came.length], record.as_bytes(), "{}", run.name);
        }
    }
}
