//! Scripts cut down, change request 14: the library against plain Rust, against a cutter that runs
//! the whole script for each trial, and against the request's claim, on cases worked out by hand, on
//! all small scripts, on random, damaged, longest and empty input; and the program that cuts a script
//! on its standard input. Every random choice is the same in each run.

mod both;

mod cases;
mod damaged;
mod lengths;
mod long;
mod program;
mod shown;
mod small;
