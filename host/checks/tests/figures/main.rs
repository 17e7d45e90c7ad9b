//! The figures over many scripts, change request 6: the program against the same report in plain
//! Rust, on cases worked out by hand, on stored, random, damaged and longest input, and the example
//! of the documents with its picture. Every random choice is the same in each run.

mod inputs;
mod report;

mod answers;
mod cases;
mod damaged;
mod example;
mod limits;
mod mixed;
mod races;
mod stored;
