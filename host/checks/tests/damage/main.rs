//! What `Damage` says of bytes that are no readable region: it is there exactly where the library's
//! check refuses, and names the first word out of range, by a table of the fields that shares
//! nothing with the wrapper's own walk. Every random choice is the same in each run.

mod due;

mod each_word;
mod garbage;
mod lengths;
mod sentences;
