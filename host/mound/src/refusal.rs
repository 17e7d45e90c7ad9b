//! Why a call was refused.

use core::error::Error;
use core::fmt;

/// Why a call, or a turn inside a run, was refused. Nothing was changed by it.
///
/// A later version may know further refusals.
///
/// ```
/// use mound::{NotARefusal, Refusal};
///
/// assert_eq!(Refusal::Busy.to_string(), "refused 9: the thread is busy");
/// assert_eq!(Refusal::Unreadable.number(), 7);
/// assert_eq!(Refusal::try_from(2), Ok(Refusal::RegionLength));
/// // 0 stands for done or yes.
/// assert_eq!(Refusal::try_from(0), Err(NotARefusal(0)));
/// ```
#[derive(Clone, Copy, Debug, PartialEq, Eq, Hash)]
#[non_exhaustive]
pub enum Refusal {
    /// 1: the shape is outside its ranges, or a permission is above 3, or the permissions are not
    /// one a thread.
    Shape = 1,
    /// 2: the slice to lay out, or to convert to, does not have the exact length of the shape; or the
    /// slice for a script that is to be cut down is shorter than the script.
    RegionLength = 2,
    /// 3: the thread is 0 or above the number of threads.
    Thread = 3,
    /// 4: the key or the tag is outside its range.
    Item = 4,
    /// 5: the answer slice is below 12 bytes a turn.
    AnswerLength = 5,
    /// 6: the schedule is not whole turns of 8 bytes, or has over 4,096 of them.
    Schedule = 6,
    /// 7: the region is not readable, where a [`Damage`](crate::Damage) says why; or the region to
    /// convert is not one of the old form; or a turn's access, or the local work after it, names a
    /// node, a cell or a level that does not exist; or a search at I3 has nothing left to search.
    Unreadable = 7,
    /// 8: the thread lacks the permission.
    Permission = 8,
    /// 9: the thread is busy.
    Busy = 9,
    /// 10: no cell is free.
    NoFreeCell = 10,
    /// 11: an update whose comparison holds meets a counter of 2^64 − 1.
    CounterSpent = 11,
    /// 12: the records to check are not whole, or over 1,024; or a kind, a thread, a key or a tag
    /// of them is outside its range.
    Records = 12,
    /// 16: the script to cut down has a line that cannot be read, or does not show the refusal.
    NotShown = 16,
}

impl Refusal {
    const ALL: [Refusal; 13] = [
        Refusal::Shape,
        Refusal::RegionLength,
        Refusal::Thread,
        Refusal::Item,
        Refusal::AnswerLength,
        Refusal::Schedule,
        Refusal::Unreadable,
        Refusal::Permission,
        Refusal::Busy,
        Refusal::NoFreeCell,
        Refusal::CounterSpent,
        Refusal::Records,
        Refusal::NotShown,
    ];

    /// The refusal's number, as the library answers it.
    #[inline]
    #[must_use]
    pub const fn number(self) -> u32 {
        self as u32
    }

    /// A library call's number as a result.
    pub(crate) fn result_of(number: u32) -> Result<(), Refusal> {
        match number {
            0 => Ok(()),
            _ => Err(Refusal::try_from(number).expect("the library answers 0 or a refusal")),
        }
    }
}

/// The refusal of that number. 0, which stands for done or yes, is none.
impl TryFrom<u32> for Refusal {
    type Error = NotARefusal;

    #[inline]
    fn try_from(number: u32) -> Result<Refusal, NotARefusal> {
        let has_number = |refusal: &Refusal| refusal.number() == number;
        Refusal::ALL.into_iter().find(has_number).ok_or(NotARefusal(number))
    }
}

/// Its [number](Refusal::number).
impl From<Refusal> for u32 {
    #[inline]
    fn from(refusal: Refusal) -> u32 {
        refusal.number()
    }
}

/// The number and the reason.
impl fmt::Display for Refusal {
    fn fmt(&self, f: &mut fmt::Formatter<'_>) -> fmt::Result {
        let reason = match self {
            Refusal::Shape => {
                "the shape or a permission is outside its range, or not one permission a thread"
            }
            Refusal::RegionLength => {
                "the slice does not have the exact length of the shape, or is shorter than the script"
            }
            Refusal::Thread => "there is no such thread",
            Refusal::Item => "the key or the tag is outside its range",
            Refusal::AnswerLength => "the answer slice is below 12 bytes a turn",
            Refusal::Schedule => "the schedule is not whole turns, or has over 4,096 of them",
            Refusal::Unreadable => {
                "the region is not readable, or a turn's step names what does not exist"
            }
            Refusal::Permission => "the thread lacks the permission",
            Refusal::Busy => "the thread is busy",
            Refusal::NoFreeCell => "no cell is free",
            Refusal::CounterSpent => "an update meets a counter that cannot grow",
            Refusal::Records => {
                "the records are not whole, or over 1,024, or a field of them is outside its range"
            }
            Refusal::NotShown => {
                "the script has a line that cannot be read, or does not show the refusal"
            }
        };
        write!(f, "refused {}: {reason}", self.number())
    }
}

impl Error for Refusal {}

/// A number that no [`Refusal`] has.
#[derive(Clone, Copy, Debug, PartialEq, Eq, Hash)]
pub struct NotARefusal(
    /// The number.
    pub u32,
);

impl fmt::Display for NotARefusal {
    fn fmt(&self, f: &mut fmt::Formatter<'_>) -> fmt::Result {
        write!(f, "no refusal has the number {}", self.0)
    }
}

impl Error for NotARefusal {}
