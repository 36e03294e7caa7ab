//! The pairing rack of documents 01 and 02 on the same 10,152 bytes, in plain
//! Rust tuned for speed: the yardstick for the proved core.
//!
//! Nothing here is proved. It is set against the plain program in
//! `tests/reference` by the tests of this package.
//!
//! Words: a board is a vertex and a link an edge; an idle board is free and a
//! waiting one pends. A vertex has a rank, its level plus 1, as the bytes
//! hold it, and stands in the roster of that rank. Row v is the out-row of v:
//! the edges that v owns. The four counts of a vertex are phi at 0 to 3, read
//! as one word with phi at j in byte j. The setting of a rack is what follows from
//! the growth and the top level that it was made with.

mod audit;
mod bits;
mod blocks;
mod change;
mod counts;
mod digits;
mod draws;
mod few;
mod lanes;
mod layout;
mod many;
mod moves;
mod planes;
mod play;
mod query;
mod queues;
mod record;
mod rosters;
mod run;
mod saved;
mod settings;
mod text;
mod words;

pub use audit::audit;
pub use change::{change, change_sound, Answer};
pub use layout::{make, make_with, RackBytes, RACK_BYTES};
pub use query::{roster, roster_sound};
pub use run::{run, Outcome, RECORD_SPACE, TEXT_LIMIT};
