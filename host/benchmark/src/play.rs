//! Calls played on a region, on records or on a script, by the library or by the plain
//! implementation.

use std::hint::black_box;
use std::ops::Range;

use mound::calls;

use crate::work::Work;

/// A key with a tag.
pub type Item = (u32, u32);

/// A call on a region, on records or on a script.
#[derive(Clone)]
pub enum Call {
    Put {
        thread: u32,
        item: Item,
    },
    Take {
        thread: u32,
    },
    List {
        thread: u32,
    },
    Permit {
        thread: u32,
        permission: u32,
    },
    /// A run of these turns of the work's schedule, without a limit.
    Run(Range<usize>),
    Check,
    /// A conversion of a region of the old form, which the bytes are; the answer is the new region.
    Convert,
    /// A check of records, which the bytes are instead of a region.
    Records,
    /// A cut of a script, which the bytes are instead of a region; the answer is what is left.
    Cut {
        number: u32,
    },
}

/// An implementation of the calls. Their answers are computed and not looked at.
pub trait Queue {
    fn put(region: &mut [u8], thread: u32, item: Item);
    fn take(region: &mut [u8], thread: u32);
    fn list(region: &mut [u8], thread: u32);
    fn permit(region: &mut [u8], thread: u32, permission: u32);
    fn run(region: &mut [u8], schedule: &[u8], answers: &mut [u8]);
    fn check(region: &[u8]);
    fn convert(old: &[u8], new: &mut [u8]);
    fn records(records: &[u8]);
    fn cut(script: &[u8], number: u32, out: &mut [u8]);
}

/// The proved library.
pub struct Library;

impl Queue for Library {
    fn put(region: &mut [u8], thread: u32, (key, tag): Item) {
        black_box(calls::put(region, thread, key, tag));
    }

    fn take(region: &mut [u8], thread: u32) {
        black_box(calls::take(region, thread));
    }

    fn list(region: &mut [u8], thread: u32) {
        black_box(calls::list(region, thread));
    }

    fn permit(region: &mut [u8], thread: u32, permission: u32) {
        black_box(calls::permit(region, thread, permission));
    }

    fn run(region: &mut [u8], schedule: &[u8], answers: &mut [u8]) {
        black_box(calls::run(region, schedule, u32::MAX, answers));
    }

    fn check(region: &[u8]) {
        black_box(calls::check(black_box(region)));
    }

    fn convert(old: &[u8], new: &mut [u8]) {
        black_box(calls::convert(black_box(old), new));
    }

    fn records(records: &[u8]) {
        black_box(calls::records(black_box(records)));
    }

    fn cut(script: &[u8], number: u32, out: &mut [u8]) {
        black_box(calls::cut(script, number, out));
    }
}

/// The plain Rust implementation.
pub struct Plain;

impl Queue for Plain {
    fn put(region: &mut [u8], thread: u32, (key, tag): Item) {
        _ = black_box(plain::put(region, thread, key, tag));
    }

    fn take(region: &mut [u8], thread: u32) {
        _ = black_box(plain::take(region, thread));
    }

    fn list(region: &mut [u8], thread: u32) {
        _ = black_box(plain::list(region, thread));
    }

    fn permit(region: &mut [u8], thread: u32, permission: u32) {
        _ = black_box(plain::permit(region, thread, permission));
    }

    fn run(region: &mut [u8], schedule: &[u8], answers: &mut [u8]) {
        _ = black_box(plain::run(region, schedule, u32::MAX, answers));
    }

    fn check(region: &[u8]) {
        _ = black_box(plain::check(black_box(region)));
    }

    fn convert(old: &[u8], new: &mut [u8]) {
        _ = black_box(plain::convert(black_box(old), new));
    }

    fn records(records: &[u8]) {
        _ = black_box(plain::check_records_by_position(black_box(records)));
    }

    fn cut(script: &[u8], number: u32, out: &mut [u8]) {
        _ = black_box(plain::cut(script, number, out));
    }
}

/// Makes the calls of a work, one after the other.
pub fn play<Q: Queue>(work: &Work, region: &mut [u8], answers: &mut [u8]) {
    for call in &work.calls {
        match call {
            Call::Put { thread, item } => Q::put(region, *thread, *item),
            Call::Take { thread } => Q::take(region, *thread),
            Call::List { thread } => Q::list(region, *thread),
            Call::Permit { thread, permission } => Q::permit(region, *thread, *permission),
            Call::Run(turns) => {
                Q::run(region, &work.schedule[8 * turns.start..8 * turns.end], answers);
            }
            Call::Check => Q::check(region),
            Call::Convert => Q::convert(region, answers),
            Call::Records => Q::records(region),
            Call::Cut { number } => Q::cut(region, *number, answers),
        }
    }
}
