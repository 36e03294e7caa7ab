//! The rack bytes as fields. A vertex is a `u8`, so that every offset is known
//! to lie within the bytes and no access is tested.

use crate::bits::{self, Row};
use crate::lanes::Lanes;
use crate::settings::SHORT;

/// The length of a rack.
pub const RACK_BYTES: usize = 10_152;

/// The bytes of a rack.
pub type RackBytes = [u8; RACK_BYTES];

/// The mate of a free vertex.
pub const FREE: u16 = 65_535;

/// A one at each of the levels 0 to 3.
pub const ONES: u32 = 0x0101_0101;

pub const EDGES_AT: usize = 2;
pub const GROWTH_AT: usize = 4;
pub const TOP_AT: usize = 5;
pub const RANKS_AT: usize = 8;
pub const MATES_AT: usize = 264;
pub const PHI_AT: usize = 776;
pub const ROWS_AT: usize = 1_800;
pub const ROSTERS_AT: usize = 9_992;

/// Makes the bytes a rack of n vertices without edges, n from 1 to 256. "The short
/// form of making gives 4 and 3 also."
pub fn make(rack: &mut RackBytes, n: u16) {
    make_with(rack, n, SHORT.0, SHORT.1);
}

/// The same with a growth from 2 to 8 and a top level from 0 to 3.
pub fn make_with(rack: &mut RackBytes, n: u16, growth: u8, top: u8) {
    rack.fill(0);
    rack[..2].copy_from_slice(&n.to_le_bytes());
    rack[GROWTH_AT] = growth;
    rack[TOP_AT] = top;
    rack[MATES_AT..PHI_AT].fill(255);
    put_set(rack, ROSTERS_AT, &bits::below(usize::from(n)));
}

fn two(rack: &RackBytes, at: usize) -> u16 {
    u16::from_le_bytes([rack[at], rack[at + 1]])
}

fn set_two(rack: &mut RackBytes, at: usize, number: u16) {
    rack[at..at + 2].copy_from_slice(&number.to_le_bytes());
}

/// The number of vertices.
pub fn vertices(rack: &RackBytes) -> usize {
    usize::from(two(rack, 0))
}

/// The number of edges.
pub fn edges(rack: &RackBytes) -> u16 {
    two(rack, EDGES_AT)
}

pub fn set_edges(rack: &mut RackBytes, edges: u16) {
    set_two(rack, EDGES_AT, edges);
}

pub fn rank(rack: &RackBytes, v: u8) -> u8 {
    rack[RANKS_AT + usize::from(v)]
}

/// Vertex v goes from one rank to another, and so out of one roster and into
/// another.
pub fn set_rank(rack: &mut RackBytes, v: u8, from: u8, to: u8) {
    rack[RANKS_AT + usize::from(v)] = to;
    let (byte, bit) = place(v);
    let rosters = &mut rack[ROSTERS_AT..];
    for rank in [from, to] {
        rosters[32 * usize::from(rank) + byte] ^= bit;
    }
}

pub fn mate(rack: &RackBytes, v: u8) -> u16 {
    two(rack, MATES_AT + 2 * usize::from(v))
}

pub fn set_mate(rack: &mut RackBytes, v: u8, mate: u16) {
    set_two(rack, MATES_AT + 2 * usize::from(v), mate);
}

/// The mates of all vertices.
pub fn mates(rack: &RackBytes) -> [u16; 256] {
    let mut mates = [FREE; 256];
    for (mate, two) in mates.iter_mut().zip(rack[MATES_AT..PHI_AT].chunks_exact(2)) {
        *mate = u16::from_le_bytes([two[0], two[1]]);
    }
    mates
}

/// The four counts of a vertex, phi at j in byte j.
pub fn phi(rack: &RackBytes, v: u8) -> u32 {
    let at = PHI_AT + 4 * usize::from(v);
    u32::from_le_bytes([rack[at], rack[at + 1], rack[at + 2], rack[at + 3]])
}

pub fn set_phi(rack: &mut RackBytes, v: u8, phi: u32) {
    let at = PHI_AT + 4 * usize::from(v);
    rack[at..at + 4].copy_from_slice(&phi.to_le_bytes());
}

/// A one at each level from this one on, none from level 4.
pub fn levels_from(level: u8) -> u32 {
    (u64::from(ONES) << (8 * level)) as u32
}

/// Phi of a vertex at a level alone.
pub fn phi_at(rack: &RackBytes, v: u8, level: u8) -> u8 {
    rack[PHI_AT + 4 * usize::from(v) + usize::from(level & 3)]
}

/// Eight bytes as one word.
pub fn word(bytes: &[u8]) -> u64 {
    let mut eight = [0; 8];
    eight.copy_from_slice(bytes);
    u64::from_le_bytes(eight)
}

/// The set of vertices that begins at an offset.
fn set_at(rack: &RackBytes, at: usize) -> Row {
    [0, 8, 16, 24].map(|k| word(&rack[at + k..at + k + 8]))
}

fn put_set(rack: &mut RackBytes, at: usize, set: &Row) {
    for (k, word) in set.iter().enumerate() {
        rack[at + 8 * k..at + 8 * k + 8].copy_from_slice(&word.to_le_bytes());
    }
}

/// Half h of the set that begins at an offset.
fn half_at(rack: &RackBytes, at: usize, h: usize) -> Lanes {
    let at = at + 16 * (h & 1);
    [0, 8].map(|k| word(&rack[at + k..at + k + 8]))
}

fn row_at(v: u8) -> usize {
    ROWS_AT + 32 * usize::from(v)
}

fn roster_at(rank: u8) -> usize {
    ROSTERS_AT + 32 * usize::from(rank)
}

/// The out-row of a vertex.
pub fn row(rack: &RackBytes, v: u8) -> Row {
    set_at(rack, row_at(v))
}

pub fn set_row(rack: &mut RackBytes, v: u8, row: &Row) {
    put_set(rack, row_at(v), row);
}

/// The roster of a rank: the vertices that stand on it.
pub fn roster(rack: &RackBytes, rank: u8) -> Row {
    set_at(rack, roster_at(rank))
}

/// Half h of the out-row of a vertex.
pub fn half(rack: &RackBytes, v: u8, h: usize) -> Lanes {
    half_at(rack, row_at(v), h)
}

/// Half h of the roster of a rank.
pub fn roster_half(rack: &RackBytes, rank: u8, h: usize) -> Lanes {
    half_at(rack, roster_at(rank), h)
}

/// The byte of a set in which a vertex stands, and its bit.
fn place(v: u8) -> (usize, u8) {
    (usize::from(v >> 3), 1 << (v & 7))
}

/// The byte of row v in which bit w stands.
pub fn owner_bits(rack: &RackBytes, v: u8, w: u8) -> u8 {
    rack[row_at(v) + place(w).0]
}

/// Whether v owns the edge v-w.
pub fn owns(rack: &RackBytes, v: u8, w: u8) -> bool {
    let (byte, bit) = place(w);
    rack[row_at(v) + byte] & bit != 0
}

pub fn linked(rack: &RackBytes, v: u8, w: u8) -> bool {
    owns(rack, v, w) || owns(rack, w, v)
}

/// Vertex v becomes the owner of v-w.
pub fn own(rack: &mut RackBytes, v: u8, w: u8) {
    let (byte, bit) = place(w);
    rack[row_at(v) + byte] |= bit;
}

/// Vertex v is no longer the owner of v-w.
pub fn disown(rack: &mut RackBytes, v: u8, w: u8) {
    let (byte, bit) = place(w);
    rack[row_at(v) + byte] &= !bit;
}

/// Whether one of the eight vertices of a group (0 to 31) owns its edge to u.
fn any_owner(rack: &RackBytes, u: u8, group: u8) -> bool {
    let at = ROWS_AT + 256 * usize::from(group & 31) + usize::from(u >> 3);
    let any = (0..8).fold(0, |any, k| any | rack[at + 32 * k]);
    any & (1 << (u & 7)) != 0
}

/// Word k of a set without the groups of eight in which none owns its edge to u.
#[inline(never)]
pub fn near_owners(rack: &RackBytes, u: u8, k: usize, word: u64) -> u64 {
    let mut near = word;
    for group in 0..8 {
        if !any_owner(rack, u, 8 * k as u8 + group) {
            near &= !(255 << (8 * group));
        }
    }
    near
}
