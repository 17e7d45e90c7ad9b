//! A region taken apart: its heading, nodes, cells and threads, each record as its words. Node, cell
//! or thread n is the record of index n − 1.

use mound::Shape;

use crate::counter::Counter;
use crate::sizes::{words_of_cells, words_of_nodes, CELL_WORDS, HEADING_WORDS};
use crate::words::{Block, Word};

pub(crate) type Heading = [Word; HEADING_WORDS];
pub(crate) type CellWords = [Word; CELL_WORDS];

/// The parts of a region, to be read.
pub(crate) struct Parts<'a, C: Counter> {
    pub heading: &'a Heading,
    pub nodes: &'a [C::NodeWords],
    pub cells: &'a [CellWords],
    pub threads: &'a [C::ThreadWords],
}

impl<'a, C: Counter> Parts<'a, C> {
    /// The parts of a region that has the shape's length.
    pub fn of(region: &'a [u8], shape: Shape) -> Parts<'a, C> {
        let (words, _) = region.as_chunks();
        let (heading, words) = words.split_first_chunk().expect("a region has a heading");
        let (nodes, words) = words.split_at(words_of_nodes::<C>(shape));
        let (cells, threads) = words.split_at(words_of_cells(shape));
        let (nodes, threads) = (C::NodeWords::all_of(nodes), C::ThreadWords::all_of(threads));
        Parts { heading, nodes, cells: cells.as_chunks().0, threads }
    }
}

/// The parts of a region, to be written.
pub(crate) struct PartsMut<'a, C: Counter> {
    pub heading: &'a mut Heading,
    pub nodes: &'a mut [C::NodeWords],
    pub cells: &'a mut [CellWords],
    pub threads: &'a mut [C::ThreadWords],
}

impl<'a, C: Counter> PartsMut<'a, C> {
    /// The parts of a region that has the shape's length.
    pub fn of(region: &'a mut [u8], shape: Shape) -> PartsMut<'a, C> {
        let (words, _) = region.as_chunks_mut();
        let (heading, words) = words.split_first_chunk_mut().expect("a region has a heading");
        let (nodes, words) = words.split_at_mut(words_of_nodes::<C>(shape));
        let (cells, threads) = words.split_at_mut(words_of_cells(shape));
        PartsMut {
            heading,
            nodes: C::NodeWords::all_of_mut(nodes),
            cells: cells.as_chunks_mut().0,
            threads: C::ThreadWords::all_of_mut(threads),
        }
    }
}
