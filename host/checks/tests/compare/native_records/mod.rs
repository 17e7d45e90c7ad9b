//! Request 9: records of a queue that runs on several cores, checked by the library, by the plain
//! checker that compares each pair, and by the fast one.

mod cases;
mod damaged;
mod form;
mod histories;
mod history;
mod mistaken_histories;
mod runs;
mod small;

use checks::native::{bytes_of, RecordWords};
use checks::queue::Item;
use checks::random::Random;

use crate::both;
use crate::tally::Outcome::{self, Records};

/// What a check answers.
const ACCEPTED: u32 = 0;
const REFUSED: u32 = 12;
const REJECTED: u32 = 255;

/// All of them, as a tally counts them.
const ALL: [Outcome; 3] = [Records(ACCEPTED), Records(REFUSED), Records(REJECTED)];

/// What a record tells of an operation: its kind and its item.
type Told = (u32, Item);

fn put(item: Item) -> Told {
    (1, item)
}

fn take(item: Item) -> Told {
    (2, item)
}

const EMPTY: Told = (3, (0, 0));

/// The words of a record.
fn record(thread: u32, times: [u32; 2], position: u32, told: Told) -> RecordWords {
    let (kind, (key, tag)) = told;
    [kind, thread, times[0], times[1], position, key, tag]
}

/// What the check of these records answers.
fn check(random: &mut Random, records: &[RecordWords]) -> u32 {
    both::check_records(random, &bytes_of(records))
}
