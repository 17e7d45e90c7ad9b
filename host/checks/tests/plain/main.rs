//! The plain Rust implementation by itself: the machine place by place, and its histories against
//! the plain bag. Every random choice is the same in each run.

mod ledger;

mod beginnings;
mod comparisons;
mod explore;
mod histories;
mod mending;
mod records;
mod refused_turns;
mod take_cost;
