//! Readability: whether every field of a region is in its range.

use mound::{Refusal, Shape};

use crate::counter::Counter;
use crate::fields::{cell, heading, node, After, Field, Place, GREATEST_PERMISSION, GREATEST_TAG};
use crate::parts::Parts;
use crate::sizes::{byte_len, node_count, shape_named_by, HEADING_WORDS};
use crate::words::{Block, Word, WORD};

/// Tells whether `region` is readable; ends at the first field out of its range. Refused as
/// unreadable where it is not.
#[inline(never)] // For speed: all calls share one copy of the whole, for each form.
pub(crate) fn check<C: Counter>(region: &[u8]) -> Result<(), Refusal> {
    if is_readable::<C>(region) {
        Ok(())
    } else {
        Err(Refusal::Unreadable)
    }
}

fn is_readable<C: Counter>(region: &[u8]) -> bool {
    let Some((heading, _)) = region.split_at_checked(WORD * HEADING_WORDS) else {
        return false;
    };
    let shape = shape_named_by(heading);
    if byte_len::<C>(shape) != Ok(region.len()) {
        return false;
    }
    let Parts { heading, nodes, cells, threads } = Parts::<C>::of(region, shape);

    (1..=shape.depth).contains(&value(heading, heading::PRESENT_DEPTH))
        && value(heading, heading::FIRST_FREE_CELL) <= shape.cells
        && nodes.iter().all(|node| node_in_range(node.as_ref(), shape))
        && cells.iter().all(|cell| cell_in_range(cell, shape))
        && threads.iter().all(|thread| thread_in_range::<C>(thread, shape))
}

fn value(words: &[Word], index: usize) -> u32 {
    u32::from_le_bytes(words[index])
}

/// The counter may be any number.
fn node_in_range(words: &[Word], shape: Shape) -> bool {
    value(words, node::FIRST_CELL) <= shape.cells && value(words, node::DIRTY) <= 1
}

/// So may the key.
fn cell_in_range(words: &[Word], shape: Shape) -> bool {
    value(words, cell::TAG) <= GREATEST_TAG && value(words, cell::NEXT) <= shape.cells
}

fn copy_in_range<C: Counter>(copy: &C::CopyWords, shape: Shape) -> bool {
    let (node, head) = copy.as_ref().split_at(C::NodeWords::WORDS);
    node_in_range(node, shape) && cell_in_range(head, shape)
}

fn thread_in_range<C: Counter>(record: &C::ThreadWords, shape: Shape) -> bool {
    let (fields, copies) = record.as_ref().split_at(Field::Copies as usize);
    let field = |field: Field| value(fields, field as usize);
    let place = field(Field::Place);
    let node = field(Field::Node);

    field(Field::Permission) <= GREATEST_PERMISSION
        && place <= Place::LAST as u32
        && field(Field::Tag) <= GREATEST_TAG
        && field(Field::OwnCell) <= shape.cells
        && field(Field::D) <= shape.depth
        && field(Field::Leaf) <= node_count(shape)
        && field(Field::Tries) <= greatest_tries(place, shape)
        && field(Field::Lo) <= shape.depth
        && field(Field::Hi) <= shape.depth
        && node <= node_count(shape)
        && field(Field::Waiting) <= all_that_may_wait(place, node)
        && field(Field::After) <= After::LAST as u32
        && field(Field::ResultTag) <= GREATEST_TAG
        && C::CopyWords::all_of(copies).iter().all(|copy| copy_in_range::<C>(copy, shape))
}

/// A put that has used up its tries no longer stands at I2.
fn greatest_tries(place: u32, shape: Shape) -> u32 {
    if place == Place::I2 as u32 {
        shape.threshold - 1
    } else {
        shape.threshold
    }
}

/// The marks of all levels above the node's: bit j − 1 for level j. Marks stand at M places only,
/// and none at node 0.
fn all_that_may_wait(place: u32, node: u32) -> u32 {
    if (Place::M1 as u32..=Place::M6 as u32).contains(&place) && node > 0 {
        (1 << node.ilog2()) - 1
    } else {
        0
    }
}
