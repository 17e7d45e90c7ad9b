//! What a turn answers, and its words.

use core::error::Error;
use core::fmt;

use crate::Refusal;

/// What a turn answers.
///
/// A later version may know further answers.
///
/// ```
/// use mound::{Answer, NotAnAnswer, Refusal};
///
/// let took = Answer::Took { key: 5, tag: 9 };
/// assert_eq!(took.to_string(), "took key 5 tag 9");
/// assert_eq!(took.words(), [3, 5, 9]);
/// assert_eq!(Answer::Refused(Refusal::Thread).words(), [5, 3, 0]);
/// assert_eq!(Answer::try_from([4, 0, 0]), Ok(Answer::Empty));
/// assert_eq!(Answer::try_from([7, 0, 0]), Err(NotAnAnswer([7, 0, 0])));
/// ```
#[derive(Clone, Copy, Debug, PartialEq, Eq, Hash)]
#[non_exhaustive]
pub enum Answer {
    /// The thread made an access of its operation, which goes on.
    Moved,
    /// The thread has no operation; nothing was done.
    Idle,
    /// The put ended: its item is in the queue.
    Inserted,
    /// The take ended with this item, which was the least, by key and then by tag, when it was
    /// removed; or the list handed this item out, the next of those that it removed.
    Took {
        /// The item's key.
        key: u32,
        /// The item's tag.
        tag: u32,
    },
    /// The take or the list ended: it found the queue empty.
    Empty,
    /// The turn was refused and nothing was done; the thread keeps its place.
    Refused(Refusal),
    /// The put, take or list ended without effect: the thread lacks the permission that it needs.
    /// The turn made no access, a put's cell is free again, and the thread is idle.
    Withdrawn,
}

impl Answer {
    /// The answer as a run writes it: code, key, tag. Words that the answer does not use are 0.
    #[inline]
    #[must_use]
    pub const fn words(self) -> [u32; 3] {
        match self {
            Answer::Moved => [0, 0, 0],
            Answer::Idle => [1, 0, 0],
            Answer::Inserted => [2, 0, 0],
            Answer::Took { key, tag } => [3, key, tag],
            Answer::Empty => [4, 0, 0],
            Answer::Refused(refusal) => [5, refusal.number(), 0],
            Answer::Withdrawn => [6, 0, 0],
        }
    }

    /// Whether the turn made an access. An idle, a refused and a withdrawn one made none.
    #[inline]
    #[must_use]
    pub const fn is_access(self) -> bool {
        !matches!(self, Answer::Idle | Answer::Refused(_) | Answer::Withdrawn)
    }
}

/// The answer that a run writes as these words.
impl TryFrom<[u32; 3]> for Answer {
    type Error = NotAnAnswer;

    #[inline]
    fn try_from(words: [u32; 3]) -> Result<Answer, NotAnAnswer> {
        match words {
            [0, 0, 0] => Ok(Answer::Moved),
            [1, 0, 0] => Ok(Answer::Idle),
            [2, 0, 0] => Ok(Answer::Inserted),
            [3, key, tag] => Ok(Answer::Took { key, tag }),
            [4, 0, 0] => Ok(Answer::Empty),
            [5, number, 0] => match Refusal::try_from(number) {
                Ok(refusal) => Ok(Answer::Refused(refusal)),
                Err(_) => Err(NotAnAnswer(words)),
            },
            [6, 0, 0] => Ok(Answer::Withdrawn),
            _ => Err(NotAnAnswer(words)),
        }
    }
}

/// Its [words](Answer::words).
impl From<Answer> for [u32; 3] {
    #[inline]
    fn from(answer: Answer) -> [u32; 3] {
        answer.words()
    }
}

/// The answer's name, with its item or with why it was refused.
impl fmt::Display for Answer {
    fn fmt(&self, f: &mut fmt::Formatter<'_>) -> fmt::Result {
        match self {
            Answer::Moved => f.pad("moved"),
            Answer::Idle => f.pad("idle"),
            Answer::Inserted => f.pad("inserted"),
            Answer::Took { key, tag } => write!(f, "took key {key} tag {tag}"),
            Answer::Empty => f.pad("empty"),
            Answer::Refused(refusal) => refusal.fmt(f),
            Answer::Withdrawn => f.pad("withdrawn"),
        }
    }
}

/// Three words that no [`Answer`] has.
#[derive(Clone, Copy, Debug, PartialEq, Eq, Hash)]
pub struct NotAnAnswer(
    /// The words.
    pub [u32; 3],
);

impl fmt::Display for NotAnAnswer {
    fn fmt(&self, f: &mut fmt::Formatter<'_>) -> fmt::Result {
        let [code, key, tag] = self.0;
        write!(f, "no answer has the words {code}, {key}, {tag}")
    }
}

impl Error for NotAnAnswer {}
