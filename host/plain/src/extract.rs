//! The places of a take, lines 21 to 31 of Listing 1, and those of a list, which change request 1
//! adds.

use mound::{Answer, Refusal};

use crate::counter::Counter;
use crate::fields::{After, Field, Place, MAY_TAKE, ROOT};
use crate::memory::{Cell, Node, NodeCopy, Update};
use crate::record::Copied;
use crate::turn::{existing, Outcome, Stop, Turn};

impl<C: Counter> Turn<'_, '_, C> {
    /// E1, lines 22 to 26, and 17: READ the root. A dirty one is mended before it is read again;
    /// one that holds something is updated at the next place.
    pub(crate) fn read_root(&mut self, again: After, next: Place) -> Outcome {
        let copy = self.memory.read(ROOT)?;
        self.needs(MAY_TAKE)?;
        if !copy.node.dirty && copy.node.first_cell == 0 {
            self.thread.go_idle();
            return Ok(Answer::Empty);
        }
        self.thread.set_copy(Copied::First, copy);
        if copy.node.dirty {
            return self.mend_root(again);
        }
        self.moved_to(next)
    }

    /// E2, lines 27 to 30: CAS the root to the rest of its list. The head that was copied is the
    /// result, and its cell is free at once.
    pub(crate) fn pop_root(&mut self) -> Outcome {
        let NodeCopy { node, head } = self.thread.copy(Copied::First);
        if !self.cut_root(node, head.next)? {
            return self.moved_to(Place::E1);
        }
        self.memory.free_cell(node.first_cell);
        self.thread.set(Field::ResultKey, head.key);
        self.thread.set(Field::ResultTag, head.tag);
        self.mend_root(After::AnswerResult)
    }

    /// 18: CAS the root to an empty list. The list that was copied is in the thread's hand, from
    /// its own cell on.
    pub(crate) fn detach_root(&mut self) -> Outcome {
        let NodeCopy { node, .. } = self.thread.copy(Copied::First);
        if !self.cut_root(node, 0)? {
            return self.moved_to(Place::P17);
        }
        self.thread.set(Field::OwnCell, node.first_cell);
        self.mend_root(After::HandOut)
    }

    /// 19: hands out the first item in hand and frees its cell. With the last the thread goes idle.
    pub(crate) fn hand_out(&mut self) -> Outcome {
        let own_cell = existing(self.thread.get(Field::OwnCell))?;
        let Cell { key, tag, next } = self.memory.cell(own_cell);
        self.memory.free_cell(own_cell);
        if next == 0 {
            self.thread.go_idle();
        } else {
            self.thread.set(Field::OwnCell, next);
        }
        Ok(Answer::Took { key, tag })
    }

    /// CAS of the root to a list that starts at this cell, dirty. Only a success names the copied
    /// head, so a copy without one is refused only where the comparison holds.
    fn cut_root(&mut self, old: Node<C>, first_cell: u32) -> Result<bool, Stop> {
        if old.first_cell == 0 && self.memory.equals(ROOT, old)? {
            return Err(Refusal::Unreadable.into());
        }
        self.needs(MAY_TAKE)?;
        Ok(self.memory.cas(&Update { at: ROOT, old, first_cell, dirty: true })?)
    }

    fn mend_root(&mut self, after: After) -> Outcome {
        self.thread.set(Field::After, after as u32);
        self.mend(ROOT)
    }
}
