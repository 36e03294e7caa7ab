//! The functions of the static library as they stand in `bindings/c/pairing.h`:
//! a slice is a pointer and its length in elements, a figure is a pointer to
//! where it goes, and the result is the number.

use crate::Number;

extern "C" {
    pub fn pairing_make(rack: *mut u8, len: usize, n: u32) -> Number;

    pub fn pairing_make_with(rack: *mut u8, len: usize, n: u32, growth: u32, top: u32) -> Number;

    pub fn pairing_audit(rack: *const u8, len: usize, yes: *mut u32) -> Number;

    pub fn pairing_level(rack: *const u8, len: usize, v: u32, level: *mut i32) -> Number;

    pub fn pairing_mate(rack: *const u8, len: usize, v: u32, mate: *mut u32) -> Number;

    pub fn pairing_linked(rack: *const u8, len: usize, v: u32, w: u32, linked: *mut u32) -> Number;

    pub fn pairing_roster(rack: *const u8, len: usize, level: i32, count: *mut u32) -> Number;

    pub fn pairing_change(
        rack: *mut u8,
        len: usize,
        code: u32,
        a: u32,
        b: u32,
        words: *const u32,
        count: usize,
        draws: *mut u64,
        falls: *mut u32,
        pairs: *mut u32,
    ) -> Number;

    pub fn pairing_run(
        rack: *mut u8,
        len: usize,
        text: *const u8,
        text_len: usize,
        space: *mut u8,
        space_len: usize,
        line: *mut usize,
        length: *mut usize,
    ) -> Number;
}
