//! The query for the number of vertices at a level.

use crate::audit::audit;
use crate::bits;
use crate::layout::{self, RackBytes};

/// How many vertices are at a level, 0 for one outside -1 to 3; none if the rack
/// isn't sound.
pub fn roster(rack: &RackBytes, level: i32) -> Option<u32> {
    audit(rack).then(|| roster_sound(rack, level))
}

/// The same on a rack that is known to be sound, without the audit.
pub fn roster_sound(rack: &RackBytes, level: i32) -> u32 {
    match level {
        -1..=3 => bits::size(&layout::roster(rack, (level + 1) as u8)),
        _ => 0,
    }
}
