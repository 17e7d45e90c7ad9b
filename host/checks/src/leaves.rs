//! The leaves that puts try, written down once more from the text: by the choice, and one after the
//! other.

use crate::fields::{place, D, LEAF};
use crate::queue::Queue;

/// I2's leaf of a level, picked by the choice.
pub fn picked(level: u32, choice: u32) -> u32 {
    let leaves = 1 << (level - 1);
    leaves + choice % leaves
}

/// Request 8: the next leaf of the same level; after the last, the first.
pub fn next(leaf: u32) -> u32 {
    let behind = leaf + 1;
    if behind.is_power_of_two() {
        behind / 2
    } else {
        behind
    }
}

/// Request 8's promise: the most accesses of a put begun at the greatest depth, while nobody else
/// moves.
pub fn most_accesses(greatest_depth: u32) -> u32 {
    (1 << greatest_depth) + 7
}

/// A kind of try at the greatest depth.
#[derive(Clone, Copy, Debug, PartialEq, Eq, PartialOrd, Ord)]
pub struct Try {
    /// Whether it is the first one of its put there.
    pub is_first: bool,
    pub failed: bool,
}

impl Try {
    /// The try that a turn was, if it was one, given the queue before and after it.
    pub fn of(thread: u32, before: &Queue, after: &Queue) -> Option<Try> {
        let depth = before.shape().depth;
        let is_try = before.place(thread) == place::I2 && before.field(thread, D) == depth;
        let is_first = before.field(thread, LEAF) < 1 << (depth - 1);
        let failed = matches!(after.place(thread), place::I1 | place::I2);
        is_try.then_some(Try { is_first, failed })
    }
}
