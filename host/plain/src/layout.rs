//! Layout: an empty queue in lent bytes.

use mound::{Refusal, Shape};

use crate::counter::Counter;
use crate::fields::{cell, Field, GREATEST_PERMISSION};
use crate::machine::Machine;
use crate::parts::PartsMut;
use crate::sizes::byte_len;

impl<'a, C: Counter> Machine<'a, C> {
    /// Lays `region` out for an empty queue.
    ///
    /// # Errors
    ///
    /// In this order, and with no byte changed: [`Refusal::Shape`], [`Refusal::RegionLength`].
    pub fn lay_out(
        region: &'a mut [u8],
        shape: Shape,
        permissions: &[u8],
    ) -> Result<Machine<'a, C>, Refusal> {
        let length = byte_len::<C>(shape)?;
        let in_range = |&permission: &u8| u32::from(permission) <= GREATEST_PERMISSION;
        if permissions.len() != shape.threads as usize || !permissions.iter().all(in_range) {
            return Err(Refusal::Shape);
        }
        if region.len() != length {
            return Err(Refusal::RegionLength);
        }

        region.fill(0);
        let parts = PartsMut::<C>::of(region, shape);
        let first_words = [shape.depth, shape.cells, shape.threads, shape.threshold, 1, 1];
        *parts.heading = first_words.map(u32::to_le_bytes);
        // Each cell names the one after it; the last is left with 0, the end of the chain.
        for (cell, next) in parts.cells.iter_mut().zip(2..=shape.cells) {
            cell[cell::NEXT] = next.to_le_bytes();
        }
        for (record, &permission) in parts.threads.iter_mut().zip(permissions) {
            record.as_mut()[Field::Permission as usize] = u32::from(permission).to_le_bytes();
        }
        Ok(Machine::of_readable(region))
    }
}
