//! The library against the plain Rust implementation: the same answer to the same call, and the
//! same bytes afterwards. No test measures time, and every random choice is the same in each run.
#![allow(
    clippy::cast_possible_truncation,
    reason = "counts are small, and of a run's answer the parts are to be cut out"
)]
#![allow(clippy::large_stack_arrays, reason = "a schedule of the most turns has 32 KiB")]

mod any_call;
mod both;
mod tally;

mod any_region;
mod beginnings;
mod cases;
mod conversions;
mod damaged;
mod dependent;
mod histories;
mod items;
mod layout;
mod leaves_tried;
mod length;
mod lists;
mod native_records;
mod permits;
mod put_ceiling;
mod readable;
mod runs;
mod take_cost;
