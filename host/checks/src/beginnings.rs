//! Beginnings, and permits beside them, with every set of reasons to refuse them.

use mound::{Refusal, Shape};

use crate::fields::{place, Words, FIRST_FREE_CELL, PERMISSION, PLACE};

/// The reasons to refuse a put, and those to refuse a take or a list, in document 01's order.
const OF_PUT: [Refusal; 6] = [
    Refusal::Unreadable,
    Refusal::Thread,
    Refusal::Item,
    Refusal::Permission,
    Refusal::Busy,
    Refusal::NoFreeCell,
];
const OF_TAKE: [Refusal; 4] =
    [Refusal::Unreadable, Refusal::Thread, Refusal::Permission, Refusal::Busy];
/// Those of them that refuse a permit, of whatever permission.
const OF_PERMIT: [Refusal; 2] = [Refusal::Unreadable, Refusal::Thread];

const SHAPE: Shape = Shape { depth: 3, cells: 3, threads: 2, threshold: 2 };

/// A region and arguments, with the results that a put is due, a take or a list, and a permit.
pub struct Beginning {
    pub region: Vec<u8>,
    pub thread: u32,
    pub key: u32,
    pub tag: u32,
    pub put: Result<(), Refusal>,
    pub take: Result<(), Refusal>,
    permit: Result<(), Refusal>,
}

impl Beginning {
    /// Permissions, and the results that permits of them are due: of all reasons, a permission
    /// above 3 is the last.
    pub fn permits(&self) -> [(u32, Result<(), Refusal>); 6] {
        let in_range = |permission| if permission <= 3 { Ok(()) } else { Err(Refusal::Shape) };
        [0, 2, 3, 4, 1 << 16, u32::MAX]
            .map(|permission| (permission, self.permit.and(in_range(permission))))
    }
}

/// A beginning for each set of a put's reasons, in two variants: the arguments and words out of
/// range are so by little or by much.
pub fn with_every_set_of_reasons() -> impl Iterator<Item = Beginning> {
    let sets = 0..1 << OF_PUT.len();
    sets.flat_map(|set| [false, true].map(|by_much| beginning(set, by_much)))
}

fn beginning(set: u32, by_much: bool) -> Beginning {
    let applies = |reason: &Refusal| {
        let at = OF_PUT.iter().position(|other| other == reason).expect("a reason of a put");
        set & (1 << at) != 0
    };
    let mut region = Words::laid_out(SHAPE);
    let last = region.words.len() - 1;
    let record = region.thread(2);
    region.words[record + PERMISSION] = if applies(&Refusal::Permission) { 0 } else { 3 };
    if applies(&Refusal::Busy) {
        region.words[record + PLACE] = if by_much { place::GREATEST } else { place::I1 };
    }
    if applies(&Refusal::NoFreeCell) {
        region.words[FIRST_FREE_CELL] = 0;
    }
    if applies(&Refusal::Unreadable) {
        region.words[last] = if by_much { u32::MAX } else { SHAPE.cells + 1 };
    }
    let (no_thread, item) = if by_much { (u32::MAX, (9, u32::MAX)) } else { (0, (u32::MAX, 9)) };
    let thread = if applies(&Refusal::Thread) { no_thread } else { 2 };
    let (key, tag) = if applies(&Refusal::Item) { item } else { (u32::MAX - 1, 65_535) };
    let first = |reasons: &[Refusal]| reasons.iter().copied().find(applies).map_or(Ok(()), Err);
    Beginning {
        region: region.bytes(),
        thread,
        key,
        tag,
        put: first(&OF_PUT),
        take: first(&OF_TAKE),
        permit: first(&OF_PERMIT),
    }
}
