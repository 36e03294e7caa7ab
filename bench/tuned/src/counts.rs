//! The counts of a rack set against what they must be.

use crate::layout::{phi, RackBytes, PHI_AT, ROWS_AT};
use crate::settings::Setting;

/// Whether the phi of every vertex is what its edges come to, and below its
/// thresholds. If the counts of a level have no bit but those of the highest count
/// that may be there, none is above it; with a growth of 2, 4 or 8 that is so
/// whenever none is, and with others they are then looked at one by one.
#[inline(always)]
pub fn are_right(rack: &RackBytes, setting: &Setting, wanted: impl Fn(usize) -> u32) -> bool {
    let (mut wrong, mut any) = (0, 0);
    for v in 0..256 {
        let stored = phi(rack, v as u8);
        wrong |= stored ^ wanted(v);
        any |= stored;
    }
    wrong == 0 && (any & !setting.most == 0 || are_below(rack, setting))
}

/// Whether all counts are below their thresholds. Those of four vertices are sixteen
/// bytes; the highest of all in each place tell.
#[inline(never)]
fn are_below(rack: &RackBytes, setting: &Setting) -> bool {
    let counts: [u8; 128] = highest(&rack[PHI_AT..ROWS_AT]);
    let counts: [u8; 16] = highest(&counts);
    let most = setting.most.to_le_bytes();
    let places = counts.iter().enumerate();
    places.fold(true, |all, (k, &count)| all & (count <= most[k % 4]))
}

/// The highest byte in each place of eight parts.
#[inline(always)]
fn highest<const LENGTH: usize>(parts: &[u8]) -> [u8; LENGTH] {
    let mut highest = [0; LENGTH];
    for (place, highest) in highest.iter_mut().enumerate() {
        let bytes = (0..8).map(|part| parts[LENGTH * part + place]);
        *highest = bytes.fold(0, u8::max);
    }
    highest
}
