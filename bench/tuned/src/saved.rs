//! What a change may write, kept so that it can be put back.

use crate::layout::{
    vertices, RackBytes, EDGES_AT, MATES_AT, PHI_AT, RANKS_AT, ROSTERS_AT, ROWS_AT,
};
use std::ops::Range;

/// The bytes of a rack but those that no change writes.
pub struct Saved(Vec<u8>);

/// The fields of n vertices.
fn fields(n: usize) -> [Range<usize>; 6] {
    [
        EDGES_AT..EDGES_AT + 2,
        RANKS_AT..RANKS_AT + n,
        MATES_AT..MATES_AT + 2 * n,
        PHI_AT..PHI_AT + 4 * n,
        ROWS_AT..ROWS_AT + 32 * n,
        ROSTERS_AT..ROSTERS_AT + 160,
    ]
}

impl Saved {
    pub fn of(rack: &RackBytes) -> Saved {
        let n = vertices(rack);
        let mut bytes = Vec::with_capacity(162 + 39 * n);
        for field in fields(n) {
            bytes.extend_from_slice(&rack[field]);
        }
        Saved(bytes)
    }

    pub fn put_back(&self, rack: &mut RackBytes) {
        let mut rest = &self.0[..];
        for field in fields(vertices(rack)) {
            let (bytes, after) = rest.split_at(field.len());
            rack[field].copy_from_slice(bytes);
            rest = after;
        }
    }
}
