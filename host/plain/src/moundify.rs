//! The places of mending, which Listing 1 calls moundify: lines 32 to 56, as document 01 corrects
//! them.

use mound::Answer;

use crate::counter::Counter;
use crate::fields::{After, Field, Place};
use crate::memory::Update;
use crate::record::Copied;
use crate::turn::{existing, level_of, Outcome, Turn};

impl<C: Counter> Turn<'_, '_, C> {
    /// Mending of a node starts, or starts again.
    pub(crate) fn mend(&mut self, node: u32) -> Outcome {
        self.thread.set(Field::Node, node);
        self.moved_to(Place::M1)
    }

    /// M1, line 33: READ the node.
    pub(crate) fn read_mended(&mut self) -> Outcome {
        let copy = self.memory.read(self.thread.get(Field::Node))?;
        self.thread.set_copy(Copied::First, copy);
        self.moved_to(Place::M2)
    }

    /// M2, lines 34 to 36: READ depth. A dirty leaf is cleaned, not left as it is. Only for a
    /// dirty copy is the node's level looked at, so a clean one returns whatever the node.
    pub(crate) fn read_depth_mending(&mut self) -> Outcome {
        let d = self.memory.read_depth();
        if !self.thread.copy(Copied::First).node.dirty {
            self.thread.set(Field::D, d);
            return self.end_mending();
        }
        let node = existing(self.thread.get(Field::Node))?;
        self.thread.set(Field::D, d);
        self.moved_to(if level_of(node) == d { Place::M6 } else { Place::M3 })
    }

    /// M3, line 37: READ the left child.
    pub(crate) fn read_left_child(&mut self) -> Outcome {
        let copy = self.memory.read(2 * self.thread.get(Field::Node))?;
        self.thread.set_copy(Copied::Second, copy);
        self.moved_to(Place::M4)
    }

    /// M4, lines 38 to 45 and 50: READ the right child. A dirty child is mended first; then the
    /// node gives its list to the child of lesser value if that is less than its own.
    pub(crate) fn read_right_child(&mut self) -> Outcome {
        let node = existing(self.thread.get(Field::Node))?;
        let right = self.memory.read(2 * node + 1)?;
        self.thread.set_copy(Copied::Third, right);
        let left = self.thread.copy(Copied::Second);
        if left.node.dirty {
            return self.mend_before(node, 2 * node);
        }
        if right.node.dirty {
            return self.mend_before(node, 2 * node + 1);
        }
        let least = left.val().min(right.val());
        let own = self.thread.copy(Copied::First).val();
        self.moved_to(if least < own { Place::M5 } else { Place::M6 })
    }

    /// M5, lines 46 to 49 and 51 to 54: DCAS. Node and child exchange their lists; the node is
    /// clean then and the child dirty.
    pub(crate) fn swap_with_child(&mut self) -> Outcome {
        let at = self.thread.get(Field::Node);
        let left = self.thread.copy(Copied::Second);
        let right = self.thread.copy(Copied::Third);
        let (child_at, child) =
            if left.val() <= right.val() { (2 * at, left.node) } else { (2 * at + 1, right.node) };
        let node = self.thread.copy(Copied::First).node;
        let give = Update { at, old: node, first_cell: child.first_cell, dirty: false };
        let get = Update { at: child_at, old: child, first_cell: node.first_cell, dirty: true };
        let swapped = self.memory.dcas(&give, &get)?;
        self.mend(if swapped { child_at } else { at })
    }

    /// M6, line 56: CAS the node to clean.
    pub(crate) fn clean(&mut self) -> Outcome {
        let at = self.thread.get(Field::Node);
        let old = self.thread.copy(Copied::First).node;
        let clean = Update { at, old, first_cell: old.first_cell, dirty: false };
        if self.memory.cas(&clean)? {
            self.end_mending()
        } else {
            self.mend(at)
        }
    }

    /// The node's level waits while its child is mended: level j by bit j − 1.
    fn mend_before(&mut self, node: u32, child: u32) -> Outcome {
        let mark = 1 << (level_of(node) - 1);
        self.thread.set(Field::Waiting, self.thread.get(Field::Waiting) | mark);
        self.mend(child)
    }

    /// Return: to the ancestor at the deepest waiting level, which waits no more; if none waits, by
    /// after.
    fn end_mending(&mut self) -> Outcome {
        let waiting = self.thread.get(Field::Waiting);
        if let Some(deepest) = waiting.checked_ilog2() {
            self.thread.set(Field::Waiting, waiting & !(1 << deepest));
            // In a readable region only levels above the node's wait.
            let node = self.thread.get(Field::Node);
            return self.mend(node >> (node.ilog2() - deepest));
        }
        self.moved_to(match self.thread.after() {
            After::TakeAgain => Place::E1,
            After::ListAgain => Place::P17,
            After::HandOut => Place::P19,
            After::AnswerResult => {
                let key = self.thread.get(Field::ResultKey);
                let tag = self.thread.get(Field::ResultTag);
                self.thread.go_idle();
                return Ok(Answer::Took { key, tag });
            }
        })
    }
}
