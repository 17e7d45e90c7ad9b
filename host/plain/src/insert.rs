//! The places of a put, lines 2 to 20 of Listing 1.

use mound::{Answer, Refusal};

use crate::counter::Counter;
use crate::fields::{Field, Place, MAY_PUT, ROOT};
use crate::memory::{Node, Update};
use crate::record::Copied;
use crate::turn::{ancestor, existing, level_of, Outcome, Turn};

/// The binary search of line 18: the levels between which it goes on, or the ancestor that it has
/// found at the last one.
struct Search {
    lo: u32,
    hi: u32,
    found: Option<u32>,
}

impl Search {
    /// The search for an ancestor of this leaf, between these levels.
    fn of(leaf: u32, lo: u32, hi: u32) -> Result<Search, Refusal> {
        let found = if lo < hi { None } else { Some(ancestor(leaf, hi)?) };
        Ok(Search { lo, hi, found })
    }
}

/// The leaf of level d that a number picks: they are counted from 0, and after the last comes the
/// first. A leaf's own number picks that leaf, and the number behind it the next one.
fn leaf_of(d: u32, number: u32) -> u32 {
    let leaves = 1 << (d - 1);
    leaves + number % leaves
}

impl<C: Counter> Turn<'_, '_, C> {
    /// I1, line 15: READ depth.
    pub(crate) fn read_depth(&mut self) -> Outcome {
        self.needs(MAY_PUT)?;
        self.thread.set(Field::D, self.memory.read_depth());
        self.thread.set(Field::Tries, 0);
        self.moved_to(Place::I2)
    }

    /// I2, lines 16 to 18: READ a leaf of level d. At the greatest depth a try that fails leaves
    /// the next leaf in the leaf word, change request 8; otherwise the word is the leaf that was
    /// read.
    pub(crate) fn try_leaf(&mut self, choice: u32) -> Outcome {
        let d = existing(self.thread.get(Field::D))?;
        let leaf = self.leaf_to_try(d, choice);
        let copy = self.memory.read(leaf)?;
        self.needs(MAY_PUT)?;
        self.thread.set_copy(Copied::First, copy);
        if copy.val() >= self.thread.item() {
            self.thread.set(Field::Leaf, leaf);
            // Never refused: the search starts at the leaf's own level.
            return self.search_on(Search::of(leaf, 1, d)?);
        }
        let tries = self.thread.get(Field::Tries) + 1;
        self.thread.set(Field::Tries, tries);
        let may_grow = d < self.shape.depth;
        self.thread.set(Field::Leaf, if may_grow { leaf } else { leaf_of(d, leaf + 1) });
        self.moved_to(if tries < self.shape.threshold {
            Place::I2
        } else if may_grow {
            Place::I4
        } else {
            Place::I1
        })
    }

    /// The leaf of level d that I2 reads. The choice picks it, unless the leaf word is a leaf of
    /// the greatest depth: it is one exactly if the put has tried a leaf there.
    fn leaf_to_try(&self, d: u32, choice: u32) -> u32 {
        let word = self.thread.get(Field::Leaf);
        if d == self.shape.depth && level_of(word) == d {
            word
        } else {
            leaf_of(d, choice)
        }
    }

    /// I3, line 18: READ the leaf's ancestor halfway between lo and hi.
    #[allow(clippy::manual_midpoint, reason = "as the papers write it; levels are at most 12")]
    pub(crate) fn search(&mut self) -> Outcome {
        let leaf = self.thread.get(Field::Leaf);
        let lo = self.thread.get(Field::Lo);
        let hi = self.thread.get(Field::Hi);
        if lo >= hi {
            return Err(Refusal::Unreadable.into());
        }
        let middle = (lo + hi) / 2;
        let copy = self.memory.read(ancestor(leaf, middle)?)?;
        let found = copy.val() >= self.thread.item();
        let (lo, hi) = if found { (lo, middle) } else { (middle + 1, hi) };
        let search = Search::of(leaf, lo, hi)?;
        self.needs(MAY_PUT)?;
        self.thread.set_copy(Copied::First, copy);
        self.search_on(search)
    }

    /// To I3 while levels are left between lo and hi, else to I5 with the ancestor found.
    fn search_on(&mut self, Search { lo, hi, found }: Search) -> Outcome {
        self.thread.set(Field::Lo, lo);
        self.thread.set(Field::Hi, hi);
        let Some(node) = found else {
            return self.moved_to(Place::I3);
        };
        self.thread.set(Field::Node, node);
        self.moved_to(Place::I5)
    }

    /// I4, line 19: CAS depth from d to d + 1.
    pub(crate) fn grow(&mut self) -> Outcome {
        let d = existing(self.thread.get(Field::D))?;
        if d >= self.shape.depth {
            return Err(Refusal::Unreadable.into());
        }
        self.needs(MAY_PUT)?;
        self.memory.cas_depth(d, d + 1);
        self.moved_to(Place::I1)
    }

    /// I5, lines 4 to 7: READ the node found.
    pub(crate) fn read_node(&mut self) -> Outcome {
        let node = self.thread.get(Field::Node);
        let copy = self.memory.read(node)?;
        self.needs(MAY_PUT)?;
        self.thread.set_copy(Copied::First, copy);
        self.moved_to(if copy.val() < self.thread.item() {
            Place::I1
        } else if node == ROOT {
            Place::I6
        } else {
            Place::I7
        })
    }

    /// I6, line 8: CAS the root, with the own cell as its new head.
    pub(crate) fn push_on_root(&mut self) -> Outcome {
        let push = self.push_on(ROOT)?;
        self.needs(MAY_PUT)?;
        let pushed = self.memory.cas(&push)?;
        self.end_push(pushed, &push)
    }

    /// I7, lines 10 and 11: READ the parent.
    pub(crate) fn read_parent(&mut self) -> Outcome {
        let parent = self.thread.get(Field::Node) / 2;
        let copy = self.memory.read(parent)?;
        self.needs(MAY_PUT)?;
        self.thread.set_copy(Copied::Second, copy);
        self.moved_to(if copy.val() > self.thread.item() { Place::I1 } else { Place::I8 })
    }

    /// I8, line 12: DCSS of the node, with the own cell as its new head, under an unchanged parent.
    pub(crate) fn push_under_parent(&mut self) -> Outcome {
        let node = self.thread.get(Field::Node);
        let push = self.push_on(node)?;
        let parent = existing(node / 2)?;
        self.needs(MAY_PUT)?;
        let copied_parent = self.thread.copy(Copied::Second).node;
        let pushed = self.memory.dcss(&push, parent, copied_parent)?;
        self.end_push(pushed, &push)
    }

    /// Line 6: the own cell before the copied list, the dirty bit as it was found.
    fn push_on(&self, at: u32) -> Result<Update<C>, Refusal> {
        let first_cell = existing(self.thread.get(Field::OwnCell))?;
        let old @ Node { dirty, .. } = self.thread.copy(Copied::First).node;
        Ok(Update { at, old, first_cell, dirty })
    }

    fn end_push(&mut self, pushed: bool, push: &Update<C>) -> Outcome {
        if !pushed {
            return self.moved_to(Place::I1);
        }
        self.memory.link(push.first_cell, push.old.first_cell);
        self.thread.go_idle();
        Ok(Answer::Inserted)
    }
}
