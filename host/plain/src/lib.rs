//! The queue in plain Rust, written from its papers alone, for the tests and the benchmark to hold
//! against the library.
//!
//! It has the types [`Shape`], [`Refusal`], [`Answer`] and [`Served`] from the crate `mound`, and
//! shares no code with the library. The calls are functions on a region's bytes; [`Machine`] is a
//! region that is checked once and then used, [`turn()`] serves one turn by itself, and
//! [`take_cost()`] tells how many accesses a take would make. A region of the old form is an
//! [`OldMachine`], and [`convert()`] carries it over.
//! [`check_records`] checks records of a queue that runs on several cores, with the types
//! [`Record`](mound::Record), [`Operation`](mound::Operation) and [`Verdict`](mound::Verdict);
//! [`check_records_by_position`] is the same, made to be fast. [`script`] reads scripts and makes
//! their calls, and [`cut()`] cuts one down.
//!
//! ```
//! use mound::{Answer, Refusal, Shape};
//!
//! let shape = Shape { depth: 1, cells: 1, threads: 1, threshold: 1 };
//! let mut region = vec![0; shape.byte_len()?];
//! plain::layout(&mut region, shape, &[3])?;
//! plain::put(&mut region, 1, 5, 9)?;
//! let answers: Vec<Answer> = (0..4).map(|_| plain::turn(&mut region, 1, 0)).collect();
//! assert_eq!(answers, [Answer::Moved, Answer::Moved, Answer::Moved, Answer::Inserted]);
//! assert_eq!(plain::take_cost(&mut region), Ok(5));
//! # Ok::<(), Refusal>(())
//! ```

#![deny(missing_docs)]
#![forbid(unsafe_code)]

mod convert;
mod cost;
mod counter;
mod cut;
mod extract;
mod fields;
mod heap;
mod insert;
mod layout;
mod machine;
mod memory;
mod moundify;
mod native_by_position;
mod native_records;
mod parts;
mod readable;
mod record;
mod run;
pub mod script;
mod sizes;
mod turn;
mod value;
mod words;

use mound::{Answer, Refusal, Served, Shape};

pub use convert::convert;
pub use counter::Counter;
pub use cut::cut;
pub use machine::Machine;
pub use native_by_position::check_records_by_position;
pub use native_records::check_records;

/// A queue in a region of the old form, whose counters have one word.
pub type OldMachine<'a> = Machine<'a, u32>;

/// Lays `region` out for an empty queue.
///
/// # Errors
///
/// Those of [`Machine::lay_out`]; no byte is changed.
pub fn layout(region: &mut [u8], shape: Shape, permissions: &[u8]) -> Result<(), Refusal> {
    <Machine>::lay_out(region, shape, permissions).map(drop)
}

/// Tells whether `region` is readable; ends at the first field out of its range.
///
/// # Errors
///
/// [`Refusal::Unreadable`] where it is not.
pub fn check(region: &[u8]) -> Result<(), Refusal> {
    readable::check::<u64>(region)
}

/// Serves the turns of a schedule, as [`Machine::run`] does.
///
/// # Errors
///
/// [`Refusal::Unreadable`] first, then those of [`Machine::run`]; no byte is changed.
pub fn run(
    region: &mut [u8],
    schedule: &[u8],
    limit: u32,
    answers: &mut [u8],
) -> Result<Served, Refusal> {
    <Machine>::open(region)?.run(schedule, limit, answers)
}

/// Begins a put of an item.
///
/// # Errors
///
/// [`Refusal::Unreadable`] first, then those of [`Machine::put`]; no byte is changed.
pub fn put(region: &mut [u8], thread: u32, key: u32, tag: u32) -> Result<(), Refusal> {
    <Machine>::open(region)?.put(thread, key, tag)
}

/// Begins a take.
///
/// # Errors
///
/// [`Refusal::Unreadable`] first, then those of [`Machine::take`]; no byte is changed.
pub fn take(region: &mut [u8], thread: u32) -> Result<(), Refusal> {
    <Machine>::open(region)?.take(thread)
}

/// Begins a list, a take of all items at the root.
///
/// # Errors
///
/// [`Refusal::Unreadable`] first, then those of [`Machine::list`]; no byte is changed.
pub fn list(region: &mut [u8], thread: u32) -> Result<(), Refusal> {
    <Machine>::open(region)?.list(thread)
}

/// Sets a thread's permission.
///
/// # Errors
///
/// [`Refusal::Unreadable`] first, then those of [`Machine::permit`]; no byte is changed.
pub fn permit(region: &mut [u8], thread: u32, permission: u32) -> Result<(), Refusal> {
    <Machine>::open(region)?.permit(thread, permission)
}

/// Serves one turn, as a run of one would: a region that is not readable is refused 7 before the
/// thread is looked at, and otherwise the answer is that of [`Machine::turn`].
pub fn turn(region: &mut [u8], thread: u32, choice: u32) -> Answer {
    match <Machine>::open(region) {
        Ok(mut machine) => machine.turn(thread, choice),
        Err(refusal) => Answer::Refused(refusal),
    }
}

/// The accesses that a take begun now makes, as [`Machine::take_cost`] says; no byte is changed.
///
/// # Errors
///
/// [`Refusal::Unreadable`] where the region is not readable.
pub fn take_cost(region: &mut [u8]) -> Result<u32, Refusal> {
    Ok(<Machine>::open(region)?.take_cost())
}
