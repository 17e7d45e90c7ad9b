//! The sizes of a region and of its parts, by the shape that its first words name.

use mound::{Refusal, Shape};

use crate::counter::Counter;
use crate::words::{word, Block, WORD};

/// Words before the first node: the shape, the present depth, the first free cell.
pub(crate) const HEADING_WORDS: usize = 6;
/// Words of one cell.
pub(crate) const CELL_WORDS: usize = 3;

/// The shape that a region's first words name, in range or not.
pub(crate) fn shape_named_by(heading: &[u8]) -> Shape {
    Shape {
        depth: word(heading, 0),
        cells: word(heading, 1),
        threads: word(heading, 2),
        threshold: word(heading, 3),
    }
}

/// The nodes of a tree of the greatest depth, for a shape in range.
pub(crate) fn node_count(shape: Shape) -> u32 {
    (1 << shape.depth) - 1
}

/// The words of all nodes, for a shape in range.
pub(crate) fn words_of_nodes<C: Counter>(shape: Shape) -> usize {
    C::NodeWords::WORDS * node_count(shape) as usize
}

/// The words of all cells.
pub(crate) fn words_of_cells(shape: Shape) -> usize {
    CELL_WORDS * shape.cells as usize
}

/// The exact length, in bytes, of a region of this shape; refused for a shape out of range.
pub(crate) fn byte_len<C: Counter>(shape: Shape) -> Result<usize, Refusal> {
    let in_range = (1..=12).contains(&shape.depth)
        && (1..=1 << (shape.depth - 1)).contains(&shape.cells)
        && (1..=64).contains(&shape.threads)
        && (1..=16).contains(&shape.threshold);
    if !in_range {
        return Err(Refusal::Shape);
    }
    let words = HEADING_WORDS
        + words_of_nodes::<C>(shape)
        + words_of_cells(shape)
        + C::ThreadWords::WORDS * shape.threads as usize;
    Ok(WORD * words)
}
