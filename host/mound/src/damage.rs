//! What is wrong with bytes that are no readable region. The library decides whether they are one;
//! the walk explains.

mod walk;

use core::error::Error;
use core::fmt;
use core::ops::RangeInclusive;

use crate::{calls, Refusal};
use walk::walk;

/// What is wrong with bytes that are no readable region: the first thing that the library's check
/// finds.
///
/// [`Region::open`](crate::Region::open) answers it. Printed, it is one sentence; as a [`Refusal`]
/// it is [`Refusal::Unreadable`], so that `?` works in functions that answer a refusal.
///
/// ```
/// use mound::{Damage, Permission, Refusal, Region, Shape};
///
/// let shape = Shape { depth: 3, cells: 4, threads: 1, threshold: 1 };
/// let mut bytes = vec![0; shape.byte_len()?];
/// Region::layout(&mut bytes, shape, &[Permission::PUT])?;
/// assert_eq!(Damage::of(&bytes), None);
///
/// // Word 31 is the dirty mark of node 7.
/// bytes[4 * 31] = 2;
/// let damage = Region::open(&mut bytes).unwrap_err();
/// assert_eq!(damage.to_string(), "word 31: node 7's dirty mark is 2, not 0 to 1");
/// assert_eq!(Refusal::from(damage), Refusal::Unreadable);
/// # Ok::<(), Refusal>(())
/// ```
#[derive(Clone, Debug, PartialEq, Eq, Hash)]
#[non_exhaustive]
pub enum Damage {
    /// The slice does not have the length of a region.
    Length {
        /// Its bytes.
        found: usize,
        /// The bytes that it should have: those of the shape that its first words name, or, for a
        /// slice too short for these four words, those of any shape.
        due: RangeInclusive<usize>,
    },
    /// A word is out of its range.
    Word(OutOfRange),
    /// The library refuses the bytes, and a look at their words does not tell why. No such bytes
    /// are known.
    Unexplained,
}

impl Damage {
    /// What is wrong with these bytes, or nothing where they are a readable region.
    ///
    /// Cost: that of [`calls::check`]; where it refuses, the same words are read once more.
    #[must_use]
    pub fn of(bytes: &[u8]) -> Option<Damage> {
        if calls::check(bytes) == 0 {
            return None;
        }
        let found = walk(bytes);
        debug_assert!(found.is_err(), "a check refuses what the walk finds readable");
        Some(found.err().unwrap_or(Damage::Unexplained))
    }
}

impl fmt::Display for Damage {
    fn fmt(&self, f: &mut fmt::Formatter<'_>) -> fmt::Result {
        match self {
            Damage::Length { found, due } => {
                write!(f, "the length in bytes is {found}, not {}", InWords(due))
            }
            Damage::Word(word) => word.fmt(f),
            Damage::Unexplained => f.pad("the bytes are no readable region"),
        }
    }
}

impl Error for Damage {}

/// [`Refusal::Unreadable`].
impl From<Damage> for Refusal {
    fn from(_: Damage) -> Refusal {
        Refusal::Unreadable
    }
}

/// A part of a region. Nodes, cells and threads count from 1.
#[derive(Clone, Copy, Debug, PartialEq, Eq, Hash)]
#[non_exhaustive]
pub enum Part {
    /// The six words before the first node.
    Heading,
    /// A node of the tree.
    Node(u32),
    /// A cell.
    Cell(u32),
    /// A thread's record, up to its node copies.
    Thread(u32),
    /// One of the node copies in a thread's record.
    NodeCopy {
        /// The thread.
        thread: u32,
        /// The copy, 1 to 3.
        copy: u32,
    },
}

impl fmt::Display for Part {
    fn fmt(&self, f: &mut fmt::Formatter<'_>) -> fmt::Result {
        match self {
            Part::Heading => f.pad("the heading"),
            Part::Node(node) => write!(f, "node {node}"),
            Part::Cell(cell) => write!(f, "cell {cell}"),
            Part::Thread(thread) => write!(f, "thread {thread}"),
            Part::NodeCopy { thread, copy } => write!(f, "node copy {copy} of thread {thread}"),
        }
    }
}

/// A word that is out of its range.
///
/// The ranges of `tries` and `waiting levels` hang on other words of the thread's record; what is
/// printed then ends with these, as in `(its place is 2)`.
///
/// ```
/// use mound::{Damage, Part, Permission, Refusal, Region, Shape};
///
/// let shape = Shape { depth: 1, cells: 1, threads: 1, threshold: 1 };
/// let mut bytes = vec![0; shape.byte_len()?];
/// Region::layout(&mut bytes, shape, &[Permission::PUT])?;
/// bytes[4 * 14] = 20;
/// let Some(Damage::Word(word)) = Damage::of(&bytes) else { panic!("word 14 is out of range") };
/// assert_eq!(word.to_string(), "word 14: thread 1's place is 20, not 0 to 19");
/// assert_eq!((word.index(), word.part(), word.field()), (14, Part::Thread(1), "place"));
/// assert_eq!((word.value(), word.range()), (20, 0..=19));
/// # Ok::<(), Refusal>(())
/// ```
#[derive(Clone, Debug, PartialEq, Eq, Hash)]
pub struct OutOfRange {
    index: usize,
    part: Part,
    field: &'static str,
    value: u32,
    range: RangeInclusive<u32>,
    beside: Beside,
}

/// The other words of a thread's record that a range hangs on.
#[derive(Clone, Copy, Debug, PartialEq, Eq, Hash)]
enum Beside {
    Nothing,
    Place(u32),
    PlaceAndNode(u32, u32),
}

impl OutOfRange {
    /// Which word of the region it is, counted from 0; its first byte is the one of index 4 × this.
    #[must_use]
    pub const fn index(&self) -> usize {
        self.index
    }

    /// The part of the region that it stands in.
    #[must_use]
    pub const fn part(&self) -> Part {
        self.part
    }

    /// What the word holds, by its name in docs/REFERENCE.md. Both words of a counter, and
    /// keys, may be any number, so the names are
    /// - of the heading `greatest depth`, `cells`, `threads`, `threshold`, `present depth` and
    ///   `first free cell`;
    /// - of a node `first cell` and `dirty mark`;
    /// - of a cell `tag` and `next cell`;
    /// - of a thread `permission`, `place`, `tag`, `own cell`, `d`, `leaf`, `tries`, `lo`, `hi`,
    ///   `node`, `waiting levels`, `after` and `result tag`;
    /// - of a node copy `first cell`, `dirty mark`, `head's tag` and `head's next`.
    #[must_use]
    pub const fn field(&self) -> &'static str {
        self.field
    }

    /// The value that was found.
    #[must_use]
    pub const fn value(&self) -> u32 {
        self.value
    }

    /// The range that the value should lie in, beside the other words as they are.
    #[must_use]
    pub const fn range(&self) -> RangeInclusive<u32> {
        RangeInclusive::new(*self.range.start(), *self.range.end())
    }
}

impl fmt::Display for OutOfRange {
    fn fmt(&self, f: &mut fmt::Formatter<'_>) -> fmt::Result {
        let OutOfRange { index, part, field, value, range, beside } = self;
        write!(f, "word {index}: ")?;
        match part {
            Part::Heading => write!(f, "the {field}")?,
            Part::NodeCopy { .. } => write!(f, "the {field} in {part}")?,
            Part::Node(_) | Part::Cell(_) | Part::Thread(_) => write!(f, "{part}'s {field}")?,
        }
        // Of the fields' names, those that end in s are plurals.
        let is = if field.ends_with('s') { "are" } else { "is" };
        write!(f, " {is} {value}, not {}", InWords(range))?;
        match beside {
            Beside::Nothing => Ok(()),
            Beside::Place(place) => write!(f, " (its place is {place})"),
            Beside::PlaceAndNode(place, node) => {
                write!(f, " (its place is {place}, its node {node})")
            }
        }
    }
}

/// A range in words: `0 to 3`, or its number where it has but one.
struct InWords<'a, Number>(&'a RangeInclusive<Number>);

impl<Number: fmt::Display + PartialEq> fmt::Display for InWords<'_, Number> {
    fn fmt(&self, f: &mut fmt::Formatter<'_>) -> fmt::Result {
        let (least, greatest) = (self.0.start(), self.0.end());
        if least == greatest {
            write!(f, "{least}")
        } else {
            write!(f, "{least} to {greatest}")
        }
    }
}
