//! The machine: a readable region in which operations begin and turns are served.

use mound::{Answer, Refusal, Shape};

use crate::counter::Counter;
use crate::fields::{
    Field, Place, GREATEST_KEY, GREATEST_PERMISSION, GREATEST_TAG, MAY_PUT, MAY_TAKE,
};
use crate::memory::Memory;
use crate::parts::PartsMut;
use crate::readable::check;
use crate::record::Record;
use crate::sizes::{byte_len, shape_named_by};
use crate::turn::Turn;

/// A queue in a region that was found readable, and that every call leaves readable. Its form is
/// that of its counters.
pub struct Machine<'a, C: Counter = u64> {
    shape: Shape,
    pub(crate) memory: Memory<'a, C>,
    threads: &'a mut [C::ThreadWords],
}

impl<'a, C: Counter> Machine<'a, C> {
    /// The exact length, in bytes, of a region of this shape.
    ///
    /// # Errors
    ///
    /// [`Refusal::Shape`] for a shape out of range.
    pub fn byte_len(shape: Shape) -> Result<usize, Refusal> {
        byte_len::<C>(shape)
    }

    /// Opens a region after a check.
    ///
    /// # Errors
    ///
    /// [`Refusal::Unreadable`] where the region is not readable.
    pub fn open(region: &'a mut [u8]) -> Result<Machine<'a, C>, Refusal> {
        check::<C>(region)?;
        Ok(Machine::of_readable(region))
    }

    /// Opens a region that is known to be readable: it was laid out, and calls alone changed it.
    pub(crate) fn of_readable(region: &'a mut [u8]) -> Machine<'a, C> {
        let shape = shape_named_by(region);
        let PartsMut { heading, nodes, cells, threads } = PartsMut::<C>::of(region, shape);
        Machine { shape, memory: Memory { heading, nodes, cells }, threads }
    }

    /// Begins a put of an item, which gets the first free cell.
    ///
    /// # Errors
    ///
    /// In this order, and with no byte changed: [`Refusal::Thread`], [`Refusal::Item`],
    /// [`Refusal::Permission`], [`Refusal::Busy`], [`Refusal::NoFreeCell`].
    pub fn put(&mut self, thread: u32, key: u32, tag: u32) -> Result<(), Refusal> {
        let mut record = record_of::<C>(self.threads, thread)?;
        if key > GREATEST_KEY || tag > GREATEST_TAG {
            return Err(Refusal::Item);
        }
        record.may_begin(MAY_PUT)?;
        let own_cell = self.memory.take_free_cell(key, tag).ok_or(Refusal::NoFreeCell)?;
        record.set_place(Place::I1);
        record.set(Field::Key, key);
        record.set(Field::Tag, tag);
        record.set(Field::OwnCell, own_cell);
        Ok(())
    }

    /// Begins a take, which removes the least item, by key and then by tag.
    ///
    /// # Errors
    ///
    /// In this order, and with no byte changed: [`Refusal::Thread`], [`Refusal::Permission`],
    /// [`Refusal::Busy`].
    pub fn take(&mut self, thread: u32) -> Result<(), Refusal> {
        self.begin_taking(thread, Place::E1)
    }

    /// Begins a list, which removes all items of the root's list and hands them out one by one.
    ///
    /// # Errors
    ///
    /// Those of [`Machine::take`].
    pub fn list(&mut self, thread: u32) -> Result<(), Refusal> {
        self.begin_taking(thread, Place::P17)
    }

    fn begin_taking(&mut self, thread: u32, place: Place) -> Result<(), Refusal> {
        let mut record = record_of::<C>(self.threads, thread)?;
        record.may_begin(MAY_TAKE)?;
        record.set_place(place);
        Ok(())
    }

    /// Sets a thread's permission, busy or not.
    ///
    /// # Errors
    ///
    /// In this order, and with no byte changed: [`Refusal::Thread`], [`Refusal::Shape`] for a
    /// permission above 3.
    pub fn permit(&mut self, thread: u32, permission: u32) -> Result<(), Refusal> {
        let mut record = record_of::<C>(self.threads, thread)?;
        if permission > GREATEST_PERMISSION {
            return Err(Refusal::Shape);
        }
        record.set(Field::Permission, permission);
        Ok(())
    }

    /// Serves a turn of a thread: the access of its place and the local work up to the next. The
    /// choice picks the leaf at I2, unless the put has tried one at the greatest depth before.
    ///
    /// It is refused, in this order and with no byte changed: 3 for the thread; 7 where the access
    /// or the local work names what does not exist; 11 where an update meets a spent counter.
    /// Between 7 and 11, a turn whose operation has not decided and lacks its permission is
    /// withdrawn.
    pub fn turn(&mut self, thread: u32, choice: u32) -> Answer {
        self.serve(thread, choice).unwrap_or_else(Answer::Refused)
    }

    fn serve(&mut self, thread: u32, choice: u32) -> Result<Answer, Refusal> {
        let thread = record_of::<C>(self.threads, thread)?;
        Turn { shape: self.shape, memory: &mut self.memory, thread }.serve(choice)
    }
}

/// The record of a thread, counted from 1.
fn record_of<C: Counter>(
    threads: &mut [C::ThreadWords],
    thread: u32,
) -> Result<Record<'_, C>, Refusal> {
    let index = (thread as usize).wrapping_sub(1);
    threads.get_mut(index).map(Record).ok_or(Refusal::Thread)
}
