//! Records of operations that threads made on several cores at once, and their check.

use core::fmt;

use crate::words::{word, WORD};
use crate::{calls, Refusal, Shape};

/// What the library answers for records that it rejects.
const REJECTED: u32 = 255;

/// The kinds, as a record's first word has them.
const PUT: u32 = 1;
const TAKE: u32 = 2;
const EMPTY: u32 = 3;

/// The greatest key of an item.
const GREATEST_KEY: u32 = u32::MAX - 1;
/// The greatest tag of an item.
pub(crate) const GREATEST_TAG: u32 = 65_535;

/// An operation that was answered, as a [`Record`] tells of it.
#[derive(Clone, Copy, Debug, PartialEq, Eq, Hash)]
pub enum Operation {
    /// A put of this item.
    Put {
        /// The item's key, 0 to 4,294,967,294.
        key: u32,
        /// The item's tag, 0 to 65,535.
        tag: u32,
    },
    /// A take that was answered this item.
    Take {
        /// The item's key, 0 to 4,294,967,294.
        key: u32,
        /// The item's tag, 0 to 65,535.
        tag: u32,
    },
    /// A take that was answered that the queue is empty.
    Empty,
}

/// What it did, with its item.
impl fmt::Display for Operation {
    fn fmt(&self, f: &mut fmt::Formatter<'_>) -> fmt::Result {
        match self {
            Operation::Put { key, tag } => write!(f, "put key {key} tag {tag}"),
            Operation::Take { key, tag } => write!(f, "take key {key} tag {tag}"),
            Operation::Empty => f.pad("empty"),
        }
    }
}

/// The record of one operation of a queue that runs on several cores, for [`check_records`].
///
/// The threads take their times from one counter or clock. A position is claimed: the queue says
/// which operation took effect first, which second, and so on.
///
/// Any numbers can be written down here; a thread, a key or a tag outside its range is refused when
/// the record is checked.
///
/// ```
/// use mound::{Operation, Record, Refusal};
///
/// let operation = Operation::Take { key: 5, tag: 9 };
/// let record = Record { operation, thread: 2, begin: 3, answer: 7, position: 4 };
/// assert_eq!(record.words(), [2, 2, 3, 7, 4, 5, 9]);
/// assert_eq!(record.to_bytes()[..8], [2, 0, 0, 0, 2, 0, 0, 0]);
/// assert_eq!(Record::try_from(record.to_bytes()), Ok(record));
/// assert_eq!(record.to_string(), "position 4: take key 5 tag 9 by thread 2 from 3 to 7");
/// // There is no kind 4.
/// assert_eq!(Record::try_from([4, 2, 3, 7, 4, 0, 0]), Err(Refusal::Records));
/// ```
#[derive(Clone, Copy, Debug, PartialEq, Eq, Hash)]
pub struct Record {
    /// What the operation was, and its item.
    pub operation: Operation,
    /// The thread that made it, 1 to 64.
    pub thread: u32,
    /// When it began.
    pub begin: u32,
    /// When it was answered.
    pub answer: u32,
    /// Its place in the order in which the operations took effect, counted from 1.
    pub position: u32,
}

impl Record {
    /// Words of a record.
    const WORDS: usize = 7;

    /// Bytes of a record.
    pub const BYTES: usize = WORD * Record::WORDS;

    /// The most records of one check.
    pub const MOST: usize = 1024;

    /// The record as its words: kind, thread, begin time, answer time, position, key, tag. The
    /// kinds are put 1, take 2 and empty 3, which has key and tag 0.
    #[inline]
    #[must_use]
    pub const fn words(self) -> [u32; 7] {
        let Record { operation, thread, begin, answer, position } = self;
        let (kind, key, tag) = match operation {
            Operation::Put { key, tag } => (PUT, key, tag),
            Operation::Take { key, tag } => (TAKE, key, tag),
            Operation::Empty => (EMPTY, 0, 0),
        };
        [kind, thread, begin, answer, position, key, tag]
    }

    /// The record as the check reads it: its [words](Record::words), each with its lowest byte
    /// first.
    #[inline]
    #[must_use]
    pub fn to_bytes(self) -> [u8; Record::BYTES] {
        let mut bytes = [0; Record::BYTES];
        for (place, word) in bytes.chunks_exact_mut(WORD).zip(self.words()) {
            place.copy_from_slice(&word.to_le_bytes());
        }
        bytes
    }
}

/// The record of these words; [`Refusal::Records`] for those that the check refuses.
impl TryFrom<[u32; 7]> for Record {
    type Error = Refusal;

    #[inline]
    fn try_from(words: [u32; 7]) -> Result<Record, Refusal> {
        let [kind, thread, begin, answer, position, key, tag] = words;
        let in_range = (1..=Shape::LARGEST.threads).contains(&thread)
            && key <= GREATEST_KEY
            && tag <= GREATEST_TAG;
        let operation = match (kind, key, tag) {
            _ if !in_range => return Err(Refusal::Records),
            (PUT, ..) => Operation::Put { key, tag },
            (TAKE, ..) => Operation::Take { key, tag },
            (EMPTY, 0, 0) => Operation::Empty,
            _ => return Err(Refusal::Records),
        };
        Ok(Record { operation, thread, begin, answer, position })
    }
}

/// The record that has these [bytes](Record::to_bytes); [`Refusal::Records`] for those that the
/// check refuses.
impl TryFrom<[u8; Record::BYTES]> for Record {
    type Error = Refusal;

    #[inline]
    fn try_from(bytes: [u8; Record::BYTES]) -> Result<Record, Refusal> {
        core::array::from_fn(|index| word(&bytes, index)).try_into()
    }
}

/// Its position, what it did, and its thread and times.
impl fmt::Display for Record {
    fn fmt(&self, f: &mut fmt::Formatter<'_>) -> fmt::Result {
        let Record { operation, thread, begin, answer, position } = self;
        write!(f, "position {position}: {operation} by thread {thread} from {begin} to {answer}")
    }
}

/// What the check says of records that are in range.
#[derive(Clone, Copy, Debug, PartialEq, Eq, Hash)]
#[must_use = "it says whether the records are accepted"]
pub enum Verdict {
    /// The operations are those of a queue that gives its least item, in the order of their
    /// positions.
    Accepted,
    /// They are not, or times and positions do not fit each other.
    Rejected,
}

/// `accepted` or `rejected`.
impl fmt::Display for Verdict {
    fn fmt(&self, f: &mut fmt::Formatter<'_>) -> fmt::Result {
        f.pad(match self {
            Verdict::Accepted => "accepted",
            Verdict::Rejected => "rejected",
        })
    }
}

/// Checks the records of a queue that runs on several cores: the bytes of at most
/// [1,024](Record::MOST) of them, in any order. No region is needed.
///
/// They are accepted exactly if
/// - each operation begins before it is answered;
/// - of two operations of a thread one is answered before the other begins;
/// - the positions are 1, 2, .. up to the number of records, each of them once;
/// - an operation that is answered before another begins has the smaller position;
/// - with the operations made one after the other by position, starting from no item, each take
///   gets the least item, by key and then by tag, and an empty finds none.
///
/// Cost: each record is looked at four times at most; a put compares its item with at most one on
/// each level of a heap, a take with at most two. A check that refuses ends at the first record that
/// is out of range. No memory is allocated; 12 kB of the stack are used.
///
/// ```
/// use mound::{check_records, Operation, Record, Refusal, Verdict};
///
/// // A take that is answered the item of a put that it overlaps.
/// let operation = Operation::Put { key: 5, tag: 0 };
/// let put = Record { operation, thread: 1, begin: 1, answer: 4, position: 1 };
/// let operation = Operation::Take { key: 5, tag: 0 };
/// let take = Record { operation, thread: 2, begin: 2, answer: 3, position: 2 };
/// let check = |records: [Record; 2]| check_records(records.map(Record::to_bytes).as_flattened());
/// assert_eq!(check([put, take]), Ok(Verdict::Accepted));
///
/// // It cannot have come first.
/// let exchanged = [Record { position: 2, ..put }, Record { position: 1, ..take }];
/// assert_eq!(check(exchanged), Ok(Verdict::Rejected));
///
/// // There is no thread 65.
/// assert_eq!(check([put, Record { thread: 65, ..take }]), Err(Refusal::Records));
/// ```
///
/// # Errors
///
/// [`Refusal::Records`], found before anything is compared: for a part of a record, for more
/// than 1,024 of them, and for a kind, a thread, a key or a tag out of its range.
pub fn check_records(records: &[u8]) -> Result<Verdict, Refusal> {
    match calls::records(records) {
        REJECTED => Ok(Verdict::Rejected),
        number => Refusal::result_of(number).map(|()| Verdict::Accepted),
    }
}
