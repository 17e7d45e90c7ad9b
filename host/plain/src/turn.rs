//! One turn: the dispatch by place, and what the places share.

use mound::{Answer, Refusal, Shape};

use crate::counter::Counter;
use crate::fields::{After, Field, Place, MAY_PUT};
use crate::memory::Memory;
use crate::record::Record;

/// What a place answers, or why it makes no access; nothing has been written then.
pub(crate) type Outcome = Result<Answer, Stop>;

/// Why a place makes no access.
pub(crate) enum Stop {
    /// The turn is refused.
    Refused(Refusal),
    /// The thread lacks this permission, change request 5.
    Lacks(u32),
}

impl From<Refusal> for Stop {
    fn from(refusal: Refusal) -> Stop {
        Stop::Refused(refusal)
    }
}

/// A turn of one thread: the shared memory and the thread's own record.
pub(crate) struct Turn<'t, 'a, C: Counter> {
    pub shape: Shape,
    pub memory: &'t mut Memory<'a, C>,
    pub thread: Record<'t, C>,
}

impl<C: Counter> Turn<'_, '_, C> {
    /// Serves the turn at the place where the thread stands, or withdraws its operation.
    pub fn serve(&mut self, choice: u32) -> Result<Answer, Refusal> {
        match self.serve_place(choice) {
            Ok(answer) => Ok(answer),
            Err(Stop::Refused(refusal)) => Err(refusal),
            Err(Stop::Lacks(permission)) => self.withdraw(permission),
        }
    }

    fn serve_place(&mut self, choice: u32) -> Outcome {
        match self.thread.place() {
            Place::Idle => Ok(Answer::Idle),
            Place::I1 => self.read_depth(),
            Place::I2 => self.try_leaf(choice),
            Place::I3 => self.search(),
            Place::I4 => self.grow(),
            Place::I5 => self.read_node(),
            Place::I6 => self.push_on_root(),
            Place::I7 => self.read_parent(),
            Place::I8 => self.push_under_parent(),
            Place::E1 => self.read_root(After::TakeAgain, Place::E2),
            Place::E2 => self.pop_root(),
            Place::M1 => self.read_mended(),
            Place::M2 => self.read_depth_mending(),
            Place::M3 => self.read_left_child(),
            Place::M4 => self.read_right_child(),
            Place::M5 => self.swap_with_child(),
            Place::M6 => self.clean(),
            Place::P17 => self.read_root(After::ListAgain, Place::P18),
            Place::P18 => self.detach_root(),
            Place::P19 => self.hand_out(),
        }
    }

    /// Whether the thread still has the permission of its operation. The places of a put and those
    /// of a take or a list before it decides look at this once all that they name is there, and
    /// before a counter.
    pub fn needs(&self, permission: u32) -> Result<(), Stop> {
        if self.thread.has(permission) {
            Ok(())
        } else {
            Err(Stop::Lacks(permission))
        }
    }

    /// The operation ends without effect, for lack of this permission: a put's own cell is freed,
    /// and the thread goes idle.
    fn withdraw(&mut self, lacking: u32) -> Result<Answer, Refusal> {
        if lacking == MAY_PUT {
            self.memory.free_cell(existing(self.thread.get(Field::OwnCell))?);
        }
        self.thread.go_idle();
        Ok(Answer::Withdrawn)
    }

    /// The thread goes on at that place.
    #[allow(
        clippy::unnecessary_wraps,
        reason = "places end with it, and what they answer is wrapped"
    )]
    pub fn moved_to(&mut self, place: Place) -> Outcome {
        self.thread.set_place(place);
        Ok(Answer::Moved)
    }
}

/// A node, cell or level that a place's access or local work takes; 0 is none.
pub(crate) fn existing(number: u32) -> Result<u32, Refusal> {
    if number == 0 {
        Err(Refusal::Unreadable)
    } else {
        Ok(number)
    }
}

/// The level of a node. That of node 0, which does not exist, is 0.
pub(crate) fn level_of(node: u32) -> u32 {
    u32::BITS - node.leading_zeros()
}

/// The ancestor of a node, or the node itself, at that level.
pub(crate) fn ancestor(node: u32, level: u32) -> Result<u32, Refusal> {
    let levels_up = level_of(node).checked_sub(existing(level)?).ok_or(Refusal::Unreadable)?;
    Ok(node >> levels_up)
}
