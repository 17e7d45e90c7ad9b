//! The converter of change request 7: a region of the old form carried over, operations under way
//! included.

use mound::Refusal;

use crate::fields::Field;
use crate::parts::{Parts, PartsMut};
use crate::readable::check;
use crate::sizes::{byte_len, shape_named_by};
use crate::words::Word;

/// The high word of a counter that came from one of 32 bits.
const HIGH: Word = [0; 4];

/// Carries a region of the old form, with counters of one word, over to `new`: each value is the
/// same, and every byte of `new` is set.
///
/// # Errors
///
/// In this order, and with no byte changed: [`Refusal::Unreadable`] where `old` is no readable
/// region of the old form, [`Refusal::RegionLength`] where `new` does not have the length of its
/// shape.
pub fn convert(old: &[u8], new: &mut [u8]) -> Result<(), Refusal> {
    check::<u32>(old)?;
    let shape = shape_named_by(old);
    if byte_len::<u64>(shape) != Ok(new.len()) {
        return Err(Refusal::RegionLength);
    }
    let old = Parts::<u32>::of(old, shape);
    let new = PartsMut::<u64>::of(new, shape);

    *new.heading = *old.heading;
    for (new, &[first_cell, dirty, counter]) in new.nodes.iter_mut().zip(old.nodes) {
        *new = [first_cell, dirty, counter, HIGH];
    }
    new.cells.copy_from_slice(old.cells);
    for (new, old) in new.threads.iter_mut().zip(old.threads) {
        let (old_fields, old_copies) = old.split_at(Field::Copies as usize);
        let (new_fields, new_copies) = new.split_at_mut(Field::Copies as usize);
        new_fields.copy_from_slice(old_fields);
        let copies = new_copies.as_chunks_mut().0.iter_mut().zip(old_copies.as_chunks().0);
        for (new, &[first_cell, dirty, counter, key, tag, next]) in copies {
            *new = [first_cell, dirty, counter, HIGH, key, tag, next];
        }
    }
    Ok(())
}
