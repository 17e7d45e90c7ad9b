//! The safe types: what a Rust program sees of a queue, of the conversion of an old one, of the check
//! of records and of the cut of a script.
#![allow(clippy::large_stack_arrays, reason = "a schedule of the most turns has 32 KiB")]

use mound::{Permission, Shape};

mod conversions;
mod cut;
mod permits;
mod records;
mod regions;
mod runs;

const SHAPE: Shape = Shape { depth: 2, cells: 2, threads: 2, threshold: 1 };
const BOTH: [Permission; 2] = [Permission::PUT_AND_TAKE; 2];
