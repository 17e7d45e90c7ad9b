//! The walk through a region that the library's check refused, up to the first test that fails. Its
//! order and its ranges are those of the check.

use core::ops::RangeInclusive;

use super::{Beside, Damage, OutOfRange, Part};
use crate::records::GREATEST_TAG;
use crate::shape::{most_cells, SHAPE_WORDS};
use crate::words::{word, WORD};
use crate::Shape;

/// Put and take.
const GREATEST_PERMISSION: u32 = 3;
/// The greatest number of a place, and of what comes after mending.
const GREATEST_PLACE: u32 = 19;
const GREATEST_AFTER: u32 = 3;
/// I2, where a put tries a leaf.
const TRYING_PLACE: u32 = 2;
/// M1 to M6.
const MENDING_PLACES: RangeInclusive<u32> = 11..=16;

/// Tests the shape, the length, and then each word that has a range, in turn. What hangs on several
/// words of a thread's record is tested behind the record's last word.
pub(super) fn walk(bytes: &[u8]) -> Result<(), Damage> {
    let largest = Shape::LARGEST;
    if bytes.len() < SHAPE_WORDS * WORD {
        let due = Shape::SMALLEST.byte_len_in_range()..=largest.byte_len_in_range();
        return Err(Damage::Length { found: bytes.len(), due });
    }
    let mut walk = Walk { bytes, next: 0 };
    let depth = walk.word(Part::Heading, "greatest depth", 1..=largest.depth)?;
    let cells = walk.word(Part::Heading, "cells", 1..=most_cells(depth))?;
    let threads = walk.word(Part::Heading, "threads", 1..=largest.threads)?;
    let threshold = walk.word(Part::Heading, "threshold", 1..=largest.threshold)?;
    let shape = Shape { depth, cells, threads, threshold };

    let length = shape.byte_len_in_range();
    if bytes.len() != length {
        return Err(Damage::Length { found: bytes.len(), due: length..=length });
    }

    walk.word(Part::Heading, "present depth", 1..=depth)?;
    walk.word(Part::Heading, "first free cell", 0..=cells)?;
    (1..=shape.nodes()).try_for_each(|node| walk.node(Part::Node(node), shape))?;
    (1..=cells).try_for_each(|cell| walk.cell(Part::Cell(cell), shape, "tag", "next cell"))?;
    (1..=threads).try_for_each(|thread| walk.thread(thread, shape))
}

/// A region, and the word to look at next.
struct Walk<'a> {
    bytes: &'a [u8],
    next: usize,
}

impl Walk<'_> {
    /// The next word, which is to be in this range.
    fn word(
        &mut self,
        part: Part,
        field: &'static str,
        range: RangeInclusive<u32>,
    ) -> Result<u32, Damage> {
        let index = self.next;
        self.next += 1;
        self.test(index, part, field, range, Beside::Nothing)
    }

    /// Passes over the next word, which may be any number; answers which one it is.
    fn free_word(&mut self) -> usize {
        self.next += 1;
        self.next - 1
    }

    /// The word of that index, which is to be in this range.
    fn test(
        &self,
        index: usize,
        part: Part,
        field: &'static str,
        range: RangeInclusive<u32>,
        beside: Beside,
    ) -> Result<u32, Damage> {
        let value = word(self.bytes, index);
        if range.contains(&value) {
            Ok(value)
        } else {
            Err(Damage::Word(OutOfRange { index, part, field, value, range, beside }))
        }
    }

    /// A node, or the copy of one.
    fn node(&mut self, part: Part, shape: Shape) -> Result<(), Damage> {
        self.word(part, "first cell", 0..=shape.cells)?;
        self.word(part, "dirty mark", 0..=1)?;
        let _low_word_of_the_counter = self.free_word();
        let _high_word_of_the_counter = self.free_word();
        Ok(())
    }

    /// A cell, or the copy of one, in which tag and next cell have other names.
    fn cell(
        &mut self,
        part: Part,
        shape: Shape,
        tag: &'static str,
        next_cell: &'static str,
    ) -> Result<(), Damage> {
        let _key = self.free_word();
        self.word(part, tag, 0..=GREATEST_TAG)?;
        self.word(part, next_cell, 0..=shape.cells)?;
        Ok(())
    }

    fn thread(&mut self, thread: u32, shape: Shape) -> Result<(), Damage> {
        let part = Part::Thread(thread);
        self.word(part, "permission", 0..=GREATEST_PERMISSION)?;
        let place = self.word(part, "place", 0..=GREATEST_PLACE)?;
        let _key = self.free_word();
        self.word(part, "tag", 0..=GREATEST_TAG)?;
        self.word(part, "own cell", 0..=shape.cells)?;
        self.word(part, "d", 0..=shape.depth)?;
        self.word(part, "leaf", 0..=shape.nodes())?;
        let tries_at = self.next;
        self.word(part, "tries", 0..=shape.threshold)?;
        self.word(part, "lo", 0..=shape.depth)?;
        self.word(part, "hi", 0..=shape.depth)?;
        let node = self.word(part, "node", 0..=shape.nodes())?;
        let waiting_at = self.free_word();
        self.word(part, "after", 0..=GREATEST_AFTER)?;
        let _result_key = self.free_word();
        self.word(part, "result tag", 0..=GREATEST_TAG)?;
        (1..=3).try_for_each(|copy| self.node_copy(Part::NodeCopy { thread, copy }, shape))?;

        let tries = 0..=greatest_tries(place, shape);
        self.test(tries_at, part, "tries", tries, Beside::Place(place))?;
        let waiting = 0..=greatest_waiting(place, node);
        self.test(waiting_at, part, "waiting levels", waiting, Beside::PlaceAndNode(place, node))?;
        Ok(())
    }

    fn node_copy(&mut self, part: Part, shape: Shape) -> Result<(), Damage> {
        self.node(part, shape)?;
        self.cell(part, shape, "head's tag", "head's next")
    }
}

/// A put that has used up its tries no longer stands at I2.
fn greatest_tries(place: u32, shape: Shape) -> u32 {
    shape.threshold - u32::from(place == TRYING_PLACE)
}

/// The marks of all levels above the node's, bit j − 1 for level j. Marks stand at the places of
/// mending alone, and none at node 0.
fn greatest_waiting(place: u32, node: u32) -> u32 {
    match node.checked_ilog2() {
        Some(levels_above) if MENDING_PLACES.contains(&place) => (1 << levels_above) - 1,
        _ => 0,
    }
}
