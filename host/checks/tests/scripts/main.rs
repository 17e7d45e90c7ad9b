//! The script program: on the stored scripts, on the longest one, and on random ones against the
//! same program in plain Rust. Every random choice is the same in each run.

mod longest;
mod mixed;
mod stored;
