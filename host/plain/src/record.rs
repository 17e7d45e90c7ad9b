//! A thread's record: its fields, its three node copies, and what is done to it as a whole.

use mound::Refusal;

use crate::counter::Counter;
use crate::fields::{After, Field, Place};
use crate::memory::NodeCopy;
use crate::value::Value;
use crate::words::{Block, Word};

/// One of the three node copies.
#[derive(Clone, Copy)]
pub(crate) enum Copied {
    /// Of every other node that is read.
    First = 0,
    /// Of the parent, or of the left child.
    Second = 1,
    /// Of the right child.
    Third = 2,
}

/// A thread's record in a readable region.
pub(crate) struct Record<'a, C: Counter>(pub &'a mut C::ThreadWords);

impl<C: Counter> Record<'_, C> {
    pub fn get(&self, field: Field) -> u32 {
        u32::from_le_bytes(self.0.as_ref()[field as usize])
    }

    pub fn set(&mut self, field: Field, value: u32) {
        self.0.as_mut()[field as usize] = value.to_le_bytes();
    }

    pub fn place(&self) -> Place {
        Place::ALL[self.get(Field::Place) as usize]
    }

    pub fn set_place(&mut self, place: Place) {
        self.set(Field::Place, place as u32);
    }

    pub fn after(&self) -> After {
        After::ALL[self.get(Field::After) as usize]
    }

    /// The item of a put, to be compared with the values of nodes.
    pub fn item(&self) -> Value {
        Value::Item { key: self.get(Field::Key), tag: self.get(Field::Tag) }
    }

    pub fn copy(&self, copied: Copied) -> NodeCopy<C> {
        let all = C::CopyWords::all_of(&self.0.as_ref()[Field::Copies as usize..]);
        NodeCopy::from_words(&all[copied as usize])
    }

    pub fn set_copy(&mut self, copied: Copied, copy: NodeCopy<C>) {
        let all = C::CopyWords::all_of_mut(&mut self.0.as_mut()[Field::Copies as usize..]);
        copy.write_to(&mut all[copied as usize]);
    }

    /// Whether the thread's list grants this.
    pub fn has(&self, permission: u32) -> bool {
        self.get(Field::Permission) & permission != 0
    }

    /// Whether an operation may begin: the thread's list grants it and the thread is idle.
    pub fn may_begin(&self, needed: u32) -> Result<(), Refusal> {
        if !self.has(needed) {
            return Err(Refusal::Permission);
        }
        match self.place() {
            Place::Idle => Ok(()),
            _ => Err(Refusal::Busy),
        }
    }

    /// Going idle zeroes every field but the permission.
    pub fn go_idle(&mut self) {
        self.0.as_mut()[Field::Permission as usize + 1..].fill(Word::default());
    }
}
