//! A script cut down to the lines that a refusal needs.

use crate::{calls, Refusal};

/// The most bytes of a script.
pub const MOST_SCRIPT_BYTES: usize = 60_000;

/// Cuts a script down: writes the start of `out` and gives back that part of it, a script made of
/// lines of the first in their order that still shows the refusal, and from which no other single
/// line can be left out without losing it. No region is needed. What a script is and prints is in
/// docs/REFERENCE.md.
///
/// The three heading lines stay. The others are tried for removal from the last to the first, over
/// and over until a whole pass removes none: a line is removed if the script without it still shows
/// the refusal, in whichever of its lines. A layout that is refused shows that with no line at all.
/// Lines are written as they stand; bytes of `out` past the last one stay as they were.
///
/// Scripts show [`Shape`](Refusal::Shape), [`Thread`](Refusal::Thread), [`Item`](Refusal::Item),
/// [`Permission`](Refusal::Permission), [`Busy`](Refusal::Busy) and
/// [`NoFreeCell`](Refusal::NoFreeCell), and no other.
///
/// Cost: each line is read once. For a pass over n lines of which it keeps k, the region of the
/// script is copied at most n times, and at most n × (log2 n + k) lines are carried out; none of them checks
/// the region. No memory is allocated; 385 kB of the stack are used.
///
/// ```
/// use mound::{cut, Refusal};
///
/// let script = b"depth cells threads threshold permission
/// 1 1 1 1 3
/// what thread a b
/// turn 1 0 0
/// put 1 5 9
/// turn 1 0 0
/// take 1 0 0
/// turn 1 0 0
/// ";
/// let mut out = [0; 512];
/// let kept = cut(script, Refusal::Busy, &mut out)?;
/// assert!(kept.ends_with(b"\nwhat thread a b\nput 1 5 9\ntake 1 0 0\n"));
/// assert_eq!(cut(script, Refusal::NoFreeCell, &mut out), Err(Refusal::NotShown));
/// # Ok::<(), Refusal>(())
/// ```
///
/// # Errors
///
/// In this order, and with no byte changed: [`Refusal::RegionLength`] where `out` is shorter than
/// the script; [`Refusal::NotShown`] where the script does not show the refusal, or has a line that
/// cannot be read, whether it would be run or not, and where it has more than
/// [60,000](MOST_SCRIPT_BYTES) bytes.
pub fn cut<'out>(
    script: &[u8],
    shown: Refusal,
    out: &'out mut [u8],
) -> Result<&'out mut [u8], Refusal> {
    let answer = calls::cut(script, shown.number(), out);
    Refusal::result_of((answer & 0xffff_ffff) as u32)?;
    Ok(&mut out[..(answer >> 32) as usize])
}
