//! Whether the words of a change suffice, told without number 12.

use crate::calls::change_rack;
use crate::Rack;

/// "whether the change as defined, on the rack before it, runs out of words"
/// (document 02, W-206), for a change that 7 to 11 don't fit: none if it doesn't,
/// and otherwise the draws made before.
///
/// Zeros are put after the words, as many as there may be new pairs. 0 is below
/// every T, so with each zero used a draw is made, and the change runs to its end.
/// It runs out of its own words exactly if it uses some of the zeros.
pub fn runs_out(before: &Rack, (code, a, b): (u32, u32, u32), words: &[u32]) -> Option<usize> {
    let enough = [words, &vec![0; before.n / 2]].concat();
    let (answer, new_pairs) = change_rack(&mut before.clone(), code, a, b, &enough);
    assert!(answer.number == 0, "zeros don't suffice");
    let zeros = (answer.draws as usize).checked_sub(words.len())?;
    (zeros > 0).then(|| new_pairs.len() - zeros)
}
