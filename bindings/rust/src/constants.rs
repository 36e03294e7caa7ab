//! What the calls take and give: lengths, places and codes. The names and values
//! are those of `bindings/c/pairing.h`.

/// The length of a rack.
pub const RACK_BYTES: usize = 10_152;

/// Where the rosters start in a rack, one for each level from -1 to 3: vertex v
/// is at a level if bit v mod 8 (bit 0 lowest) of byte v div 8 is set in the
/// [`ROSTER_BYTES`] bytes from `ROSTERS + ROSTER_BYTES * (level + 1)` on. Those
/// above the rack's top level are empty. The calls keep the rosters; a display
/// only reads them.
pub const ROSTERS: usize = 9_992;

/// The length of a roster.
pub const ROSTER_BYTES: usize = 32;

/// The most vertices.
pub const MOST_VERTICES: u32 = 256;

/// The least growth of a rack. A vertex below level j has to rise there once so
/// many of its neighbours stand below that level as its threshold says, which is
/// the growth to the power j.
pub const LEAST_GROWTH: u32 = 2;

/// The most growth of a rack.
pub const MOST_GROWTH: u32 = 8;

/// The highest top level of a rack; the least is 0. No vertex rises above the top
/// level.
pub const MOST_TOP: u32 = 3;

/// The growth of the short form: of [`make`](crate::make), and of a trace text whose
/// line 1 names no settings.
pub const SHORT_GROWTH: u32 = 4;

/// The top level of the short form.
pub const SHORT_TOP: u32 = 3;

/// The byte of a rack that holds its growth. No call changes it but those that make
/// a rack.
pub const GROWTH_AT: usize = 4;

/// The byte of a rack that holds its top level, likewise.
pub const TOP_AT: usize = 5;

/// The most bytes of a trace text.
pub const TEXT_LIMIT: usize = 16_384;

/// The least bytes of a record space: a record of any trace text fits.
pub const RECORD_SPACE: usize = 65_536;

/// The stack in bytes that [`run`](crate::run) needs beside its caller's own;
/// measured with a margin, and not proved.
pub const STACK_RUN: usize = 81_920;

/// The stack in bytes that [`change`](crate::change) needs, which may keep the
/// rack's bytes aside; likewise.
pub const STACK_CHANGE: usize = 20_480;

/// The stack in bytes that every other call needs, likewise.
pub const STACK_CALL: usize = 8_192;

/// The mate of a free vertex.
pub const FREE: u32 = 65_535;

/// The code of a change that adds an edge.
pub const ADD: u32 = 1;

/// The code of a change that drops an edge.
pub const DROP: u32 = 2;
