//! The four numbers that a region is laid out by, and the sizes that follow from them.

use core::fmt;

use crate::words::{word, WORD};
use crate::Refusal;

/// Words before the first node: the shape, the present depth, the first free cell.
const HEADING_WORDS: usize = 6;
/// Words of one cell.
const CELL_WORDS: usize = 3;
/// The words of the shape.
pub(crate) const SHAPE_WORDS: usize = 4;

/// Words of what has counters in it: two words each, and one in a region of the old form.
struct Form {
    /// Of one node.
    node: usize,
    /// Of one thread's record.
    thread: usize,
}

impl Form {
    const PRESENT: Form = Form { node: 4, thread: 36 };
    const OLD: Form = Form { node: 3, thread: 33 };
}

/// The four numbers that a region is laid out by. Any numbers can be written down here; a shape
/// outside the ranges is refused when it is used.
///
/// ```
/// use mound::{Refusal, Shape};
///
/// let shape = Shape { depth: 2, cells: 2, threads: 2, threshold: 1 };
/// assert_eq!(shape.byte_len(), Ok(384));
/// assert_eq!(Shape { cells: 3, ..shape }.byte_len(), Err(Refusal::Shape));
/// assert_eq!(shape.to_string(), "depth 2, cells 2, threads 2, threshold 1");
/// ```
#[derive(Clone, Copy, Debug, PartialEq, Eq, Hash)]
pub struct Shape {
    /// Greatest depth of the tree, 1 to 12.
    pub depth: u32,
    /// Cells, one for each item held, being put or in a list's hand: 1 to as many as the greatest
    /// depth has leaves, which are 2^(depth − 1).
    pub cells: u32,
    /// Threads, 1 to 64.
    pub threads: u32,
    /// Failed tries after which a put goes a level deeper, 1 to 16.
    pub threshold: u32,
}

impl Shape {
    /// The smallest shape there is, of 196 bytes.
    pub(crate) const SMALLEST: Shape = Shape { depth: 1, cells: 1, threads: 1, threshold: 1 };

    /// The largest shape there is, of 99,336 bytes.
    pub const LARGEST: Shape = Shape { depth: 12, cells: 2048, threads: 64, threshold: 16 };

    /// Whether each number is in its range.
    #[inline]
    #[must_use]
    pub const fn is_in_range(self) -> bool {
        let largest = Shape::LARGEST;
        is_within(self.depth, largest.depth)
            && is_within(self.cells, most_cells(self.depth))
            && is_within(self.threads, largest.threads)
            && is_within(self.threshold, largest.threshold)
    }

    /// The exact length, in bytes, of a region of this shape.
    ///
    /// It can be asked for when a program is compiled, where memory is not allocated:
    ///
    /// ```
    /// use mound::{Permission, Refusal, Region, Shape};
    ///
    /// const SHAPE: Shape = Shape { depth: 2, cells: 2, threads: 2, threshold: 1 };
    /// const LENGTH: usize = match SHAPE.byte_len() {
    ///     Ok(length) => length,
    ///     Err(_) => panic!("a shape out of range"),
    /// };
    ///
    /// let mut bytes = [0; LENGTH];
    /// let region = Region::layout(&mut bytes, SHAPE, &[Permission::PUT_AND_TAKE; 2])?;
    /// assert_eq!(region.shape(), SHAPE);
    /// # Ok::<(), Refusal>(())
    /// ```
    ///
    /// # Errors
    ///
    /// [`Refusal::Shape`] for a shape out of range.
    #[inline]
    pub const fn byte_len(self) -> Result<usize, Refusal> {
        if self.is_in_range() {
            Ok(self.byte_len_in_range())
        } else {
            Err(Refusal::Shape)
        }
    }

    /// The exact length, in bytes, that a region of this shape has in the old form, which
    /// [`Region::convert`](crate::Region::convert) carries over.
    ///
    /// ```
    /// use mound::{Refusal, Shape};
    ///
    /// let shape = Shape { depth: 2, cells: 2, threads: 2, threshold: 1 };
    /// assert_eq!(shape.old_byte_len(), Ok(348));
    /// ```
    ///
    /// # Errors
    ///
    /// [`Refusal::Shape`] for a shape out of range.
    #[inline]
    pub const fn old_byte_len(self) -> Result<usize, Refusal> {
        if self.is_in_range() {
            Ok(self.byte_len_in(&Form::OLD))
        } else {
            Err(Refusal::Shape)
        }
    }

    /// The exact length of a region of this shape, for a shape in range.
    pub(crate) const fn byte_len_in_range(self) -> usize {
        self.byte_len_in(&Form::PRESENT)
    }

    const fn byte_len_in(self, form: &Form) -> usize {
        WORD * (self.words_before_threads(form) + form.thread * self.threads as usize)
    }

    /// The first word of a thread's record, for a shape in range; none where there is no such
    /// thread.
    pub(crate) fn thread_record(self, thread: u32) -> Option<usize> {
        let form = Form::PRESENT;
        let others = (1..=self.threads).contains(&thread).then(|| thread as usize - 1)?;
        Some(self.words_before_threads(&form) + form.thread * others)
    }

    const fn words_before_threads(self, form: &Form) -> usize {
        HEADING_WORDS + form.node * self.nodes() as usize + CELL_WORDS * self.cells as usize
    }

    /// The nodes of a tree of the greatest depth, for a shape in range.
    pub(crate) const fn nodes(self) -> u32 {
        (1 << self.depth) - 1
    }

    /// The shape that the first four words of a region name, be it of this form or of the old one;
    /// the rest is not looked at.
    ///
    /// ```
    /// use mound::{Refusal, Shape};
    ///
    /// let words = [2_u32, 2, 2, 1];
    /// let mut first_bytes: Vec<u8> = words.into_iter().flat_map(u32::to_le_bytes).collect();
    /// let shape = Shape { depth: 2, cells: 2, threads: 2, threshold: 1 };
    /// assert_eq!(Shape::of_region(&first_bytes), Ok(shape));
    /// first_bytes[0] = 13;
    /// assert_eq!(Shape::of_region(&first_bytes), Err(Refusal::Unreadable));
    /// ```
    ///
    /// # Errors
    ///
    /// [`Refusal::Unreadable`] where there are no four words, or where a number is out of its range.
    pub fn of_region(bytes: &[u8]) -> Result<Shape, Refusal> {
        let four_words = bytes.get(..SHAPE_WORDS * WORD).ok_or(Refusal::Unreadable)?;
        let shape = Shape::named_by(four_words);
        if shape.is_in_range() {
            Ok(shape)
        } else {
            Err(Refusal::Unreadable)
        }
    }

    /// The shape that a region's first words name, in range or not.
    pub(crate) fn named_by(heading: &[u8]) -> Shape {
        Shape {
            depth: word(heading, 0),
            cells: word(heading, 1),
            threads: word(heading, 2),
            threshold: word(heading, 3),
        }
    }
}

/// The leaves of a tree of that depth, a depth in range; there may be as many cells.
pub(crate) const fn most_cells(depth: u32) -> u32 {
    1 << (depth - 1)
}

/// Whether a number is between 1 and the greatest.
const fn is_within(number: u32, greatest: u32) -> bool {
    number != 0 && number <= greatest
}

/// The four numbers with their names.
impl fmt::Display for Shape {
    fn fmt(&self, f: &mut fmt::Formatter<'_>) -> fmt::Result {
        let Shape { depth, cells, threads, threshold } = self;
        write!(f, "depth {depth}, cells {cells}, threads {threads}, threshold {threshold}")
    }
}
