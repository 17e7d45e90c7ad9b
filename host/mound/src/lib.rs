//! The proved mound wake-up queue, for Rust programs.
//!
//! A queue lives in a *region*: a byte slice that the host lends and whose every byte is defined
//! (docs/REFERENCE.md at the root of the repository). The calls are compiled from the proved source
//! and linked as a static library; this crate gives them the types a Rust program expects and adds
//! no rule of its own. A call that is refused says why by a [`Refusal`] and changes no byte.
//!
//! An item is a key with a tag. A take removes the least item: the one of the smallest key, and of
//! equal keys the one of the smaller tag. Wholly equal items may be held beside each other. A list
//! removes several items at once, the least of all first among them; the others may be greater than
//! items that stay. Each operation takes effect only with the thread's permission for it.
//!
//! ```
//! use mound::{Answer, Permission, Refusal, Region, Shape, Turn};
//!
//! # fn main() -> Result<(), Refusal> {
//! let shape = Shape { depth: 2, cells: 2, threads: 2, threshold: 1 };
//! let mut bytes = vec![0; shape.byte_len()?];
//! assert_eq!(bytes.len(), 384);
//!
//! // Thread 1 may put and take, thread 2 may do nothing.
//! let mut region =
//!     Region::layout(&mut bytes, shape, &[Permission::PUT_AND_TAKE, Permission::NONE])?;
//! assert_eq!(region.put(2, 5, 9), Err(Refusal::Permission));
//!
//! // A put is begun, and turns carry it out, one access to shared memory each.
//! region.put(1, 5, 9)?;
//! let run = region.run([Turn { thread: 1, choice: 0 }; 4], u32::MAX)?;
//! assert!(run.answers().eq([Answer::Moved, Answer::Moved, Answer::Moved, Answer::Inserted]));
//!
//! // So is a take. Turns of any threads may come in any order; the limit is on accesses.
//! region.take(1)?;
//! let turns = [2, 1, 1, 1, 2, 1, 1].map(|thread| Turn { thread, choice: 0 });
//! let run = region.run(&turns, 5)?;
//! assert_eq!((run.served().turns, run.served().accesses), (7, 5));
//! assert_eq!(run.answers().next(), Some(Answer::Idle));
//! assert_eq!(run.answers().last(), Some(Answer::Took { key: 5, tag: 9 }));
//!
//! // The bytes are the whole queue. Opening them again checks them and says what is wrong.
//! bytes[0] = 13;
//! let damage = Region::open(&mut bytes).unwrap_err();
//! assert_eq!(damage.to_string(), "word 0: the greatest depth is 13, not 1 to 12");
//! # Ok(())
//! # }
//! ```
//!
//! Regions that earlier versions of this library left have counters of one word, where they have
//! two now. [`Region::convert`] carries such a region of the old form over, with its items and the
//! operations under way; no other call reads one.
//!
//! A queue of another make, one that runs on several cores, can have the records of its operations
//! checked by [`check_records`]; that needs no region. Nor does [`cut()`], which finds in a long
//! script, as the script program of this repository runs them, the few lines that a refusal needs.
//!
//! # Depending on it
//!
//! ```toml
//! [dependencies]
//! mound = { path = "…/host/mound" }
//! ```
//!
//! The static library `libmound.a` is looked for in target/staticlib at the root of the repository
//! that this crate stands in, where `./library` writes it, or in the folder that the
//! environment variable `MOUND_LIBRARY_DIR` names, an absolute path. It is for x86-64. The crate
//! needs no `std`, and of `alloc` only what a [`Run`] keeps; no call of the library allocates.
//!
//! # The calls
//!
//! | Call | Refusals, in order | Cost |
//! |---|---|---|
//! | [`Region::layout`] | 1 shape or permissions, 2 length | each byte |
//! | [`Region::open`] | 7 not readable, as a [`Damage`] | a check |
//! | [`Region::convert`] | 7 no readable region of the old form, 2 length | a check, each byte |
//! | [`Region::put`] | 3 thread, 4 item, 8 permission, 9 busy, 10 no free cell | a check, one record and one cell |
//! | [`Region::take`], [`Region::list`] | 3 thread, 8 permission, 9 busy | a check, one record |
//! | [`Region::permit`] | 3 thread | a check, one word |
//! | [`Region::run`], [`Region::run_into`] | 6 schedule | a check, then its turns |
//! | [`Region::check`] | none | a check |
//! | [`Region::is_idle`], [`Region::permission`] | 3 thread | five words |
//! | [`check_records`] | 12 records | each record four times, a heap's comparisons |
//! | [`cut()`] | 2 length, 16 not shown | for each line copies and runs, over and over |
//!
//! A check reads the words that have a range, in order, up to the first that is out of it; so it
//! grows with the region. A turn makes at most one access, whatever the size of the region. Inside
//! a run a turn may be refused 3 or 7, be withdrawn, or be refused 11, the first that applies; that
//! is its [`Answer`], and the run goes on.
//!
//! [`Region`] is what a program uses for a queue. [`calls`] are the library's functions on plain numbers and
//! byte slices. What the words of a region are, what each call does to them and what is proved of
//! it is in docs/REFERENCE.md at the root of the repository.

#![no_std]
#![deny(missing_debug_implementations)]
#![deny(missing_docs)]
#![deny(unsafe_code)]

extern crate alloc;

mod answer;
pub mod calls;
mod cut;
mod damage;
mod permission;
mod records;
mod refusal;
mod region;
mod run;
mod shape;
mod words;

pub use answer::{Answer, NotAnAnswer};
pub use cut::{cut, MOST_SCRIPT_BYTES};
pub use damage::{Damage, OutOfRange, Part};
pub use permission::Permission;
pub use records::{check_records, Operation, Record, Verdict};
pub use refusal::{NotARefusal, Refusal};
pub use region::Region;
pub use run::{Answers, Run, Served, Turn};
pub use shape::Shape;

/// The example of the repository's README, which is run with the other examples.
#[cfg(doctest)]
#[doc = include_str!("../../../README.md")]
struct Readme;
