//! A run as a Rust program sees it: turns in, answers out.

use alloc::vec::Vec;
use core::borrow::Borrow;
use core::fmt;
use core::iter::FusedIterator;
use core::slice;

use crate::words::Word;
use crate::{calls, Answer, Refusal};

/// A turn to be served.
#[derive(Clone, Copy, Debug, PartialEq, Eq, Hash)]
pub struct Turn {
    /// The thread whose turn it is, counted from 1.
    pub thread: u32,
    /// Picks the leaf where the turn makes a put try one; every other turn leaves it unused. A put
    /// that has tried a leaf at the greatest depth uses none either: it goes on from there, leaf by
    /// leaf, so that poor choices cannot keep it from a free one.
    pub choice: u32,
}

impl Turn {
    /// The most turns of one run.
    pub const MOST: usize = 4096;
}

/// What a run served.
#[derive(Clone, Copy, Debug, Default, PartialEq, Eq, Hash)]
pub struct Served {
    /// Turns served, idle, withdrawn and refused ones among them.
    pub turns: u32,
    /// Accesses that these turns made.
    pub accesses: u32,
}

impl Served {
    /// The library's answer to a run as a result: the refusal in bits 0 to 15, the turns served in
    /// bits 16 to 31, the accesses made above them.
    fn result_of(answer: u64) -> Result<Served, Refusal> {
        Refusal::result_of((answer & 0xffff) as u32)?;
        let turns = ((answer >> 16) & 0xffff) as u32;
        let accesses = (answer >> 32) as u32;
        Ok(Served { turns, accesses })
    }
}

/// What a run did: the answers of the turns that were served, in order, and their counts.
///
/// It keeps the memory that schedule and answers took, for [`Region::run_into`] to use again.
///
/// ```
/// use mound::{Answer, Permission, Refusal, Region, Shape, Turn};
///
/// let shape = Shape { depth: 1, cells: 1, threads: 2, threshold: 1 };
/// let mut bytes = vec![0; shape.byte_len()?];
/// let mut region = Region::layout(&mut bytes, shape, &[Permission::TAKE; 2])?;
/// region.take(2)?;
///
/// let turns = [1, 2].map(|thread| Turn { thread, choice: 0 });
/// let run = region.run(turns, u32::MAX)?;
/// for (turn, answer) in turns.iter().zip(&run) {
///     println!("thread {}: {answer}", turn.thread);
/// }
/// assert!(run.answers().eq([Answer::Idle, Answer::Empty]));
/// # Ok::<(), Refusal>(())
/// ```
///
/// [`Region::run_into`]: crate::Region::run_into
#[derive(Clone, Default)]
pub struct Run {
    schedule: Vec<[Word; 2]>,
    answers: Vec<[Word; 3]>,
    served: Served,
}

impl Run {
    /// The answers of the served turns, in the order of the schedule. Cost: each is decoded when it
    /// is asked for.
    #[inline]
    pub fn answers(&self) -> Answers<'_> {
        Answers { words: self.answers[..self.served.turns as usize].iter() }
    }

    /// How many turns were served and how many accesses they made.
    #[inline]
    #[must_use]
    pub const fn served(&self) -> Served {
        self.served
    }

    /// Runs these turns on a readable region; their answers replace those of the run before.
    pub(crate) fn serve(
        &mut self,
        region: &mut [u8],
        turns: impl IntoIterator<Item: Borrow<Turn>>,
        limit: u32,
    ) -> Result<Served, Refusal> {
        self.served = Served::default();
        self.schedule.clear();
        // One turn too many is enough to be refused for.
        self.schedule.extend(turns.into_iter().take(Turn::MOST + 1).map(|turn| {
            let Turn { thread, choice } = *turn.borrow();
            [thread, choice].map(u32::to_le_bytes)
        }));
        self.answers.resize(self.schedule.len(), Default::default());
        let schedule = self.schedule.as_flattened().as_flattened();
        let answers = self.answers.as_flattened_mut().as_flattened_mut();
        self.served = Served::result_of(calls::run(region, schedule, limit, answers))?;
        Ok(self.served)
    }
}

/// Shows counts and answers.
impl fmt::Debug for Run {
    fn fmt(&self, f: &mut fmt::Formatter<'_>) -> fmt::Result {
        f.debug_struct("Run")
            .field("served", &self.served)
            .field("answers", &self.answers())
            .finish_non_exhaustive()
    }
}

/// The same as [`Run::answers`].
#[allow(clippy::into_iter_without_iter, reason = "the method is called `answers`")]
impl<'a> IntoIterator for &'a Run {
    type Item = Answer;
    type IntoIter = Answers<'a>;

    #[inline]
    fn into_iter(self) -> Answers<'a> {
        self.answers()
    }
}

/// The answers of a run, in the order of its turns; [`Run::answers`] gives them.
#[derive(Clone)]
#[must_use = "answers are decoded only when they are asked for"]
pub struct Answers<'a> {
    words: slice::Iter<'a, [Word; 3]>,
}

impl Iterator for Answers<'_> {
    type Item = Answer;

    #[inline]
    fn next(&mut self) -> Option<Answer> {
        self.words.next().map(written)
    }

    #[inline]
    fn size_hint(&self) -> (usize, Option<usize>) {
        self.words.size_hint()
    }

    #[inline]
    fn count(self) -> usize {
        self.words.len()
    }

    #[inline]
    fn nth(&mut self, n: usize) -> Option<Answer> {
        self.words.nth(n).map(written)
    }

    #[inline]
    fn last(mut self) -> Option<Answer> {
        self.next_back()
    }
}

impl DoubleEndedIterator for Answers<'_> {
    #[inline]
    fn next_back(&mut self) -> Option<Answer> {
        self.words.next_back().map(written)
    }

    #[inline]
    fn nth_back(&mut self, n: usize) -> Option<Answer> {
        self.words.nth_back(n).map(written)
    }
}

impl ExactSizeIterator for Answers<'_> {}

impl FusedIterator for Answers<'_> {}

/// Shows the answers that are left.
impl fmt::Debug for Answers<'_> {
    fn fmt(&self, f: &mut fmt::Formatter<'_>) -> fmt::Result {
        f.debug_list().entries(self.clone()).finish()
    }
}

/// The answer that the library wrote as these words. It writes no others than an answer's; if it
/// did, they would count as a turn refused for what cannot be read, so that no caller's loop
/// panics.
fn written(words: &[Word; 3]) -> Answer {
    let answer = Answer::try_from(words.map(u32::from_le_bytes));
    debug_assert!(answer.is_ok(), "{words:?} is no answer");
    answer.unwrap_or(Answer::Refused(Refusal::Unreadable))
}
