//! The rival order: a change made once more with the lowest number first, to
//! show that among the changes tried are some that the order decides.

use crate::calls::change_in_order;
use crate::queues::Order;
use crate::{Answer, Rack};

/// Whether the order can decide a change that answered this: of two boards that
/// wait at the highest level, each draws or falls.
pub fn order_may_decide(answer: &Answer) -> bool {
    answer.draws + u64::from(answer.falls) >= 2
}

/// Whether a change, which answered this and left this rack, comes out otherwise
/// with the lowest number first.
pub fn order_decides(
    before: &Rack,
    (code, a, b): (u32, u32, u32),
    words: &[u32],
    answer: &Answer,
    after: &Rack,
) -> bool {
    if !order_may_decide(answer) {
        return false;
    }
    let mut rack = before.clone();
    let (other, _) = change_in_order(Order::LowestNumber, &mut rack, code, a, b, words);
    other != *answer || rack != *after
}
