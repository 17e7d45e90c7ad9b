//! The counters of nodes, and by their width the form of a region: two words each, low first,
//! since change request 7, and one word in the old form. All else is the same in both forms.

use crate::words::{Block, Word};

/// A counter, and the sizes of what holds one: `u64`, and in regions of the old form `u32`.
pub trait Counter: Copy + Eq {
    /// The words of a node: first cell, dirty, then the counter.
    type NodeWords: Block;
    /// The words of a node copy: those of the node, then those of its head cell.
    type CopyWords: Block;
    /// The words of a thread's record: its fifteen fields, then three node copies.
    type ThreadWords: Block;

    /// The counter that starts these words.
    fn from_words(words: &[Word]) -> Self;

    /// Writes the counter to the start of these words.
    fn write_to(self, words: &mut [Word]);

    /// The counter after one more update; none where it cannot grow.
    fn next(self) -> Option<Self>;
}

impl Counter for u32 {
    type NodeWords = [Word; 3];
    type CopyWords = [Word; 6];
    type ThreadWords = [Word; 33];

    fn from_words(words: &[Word]) -> u32 {
        u32::from_le_bytes(words[0])
    }

    fn write_to(self, words: &mut [Word]) {
        words[0] = self.to_le_bytes();
    }

    fn next(self) -> Option<u32> {
        self.checked_add(1)
    }
}

impl Counter for u64 {
    type NodeWords = [Word; 4];
    type CopyWords = [Word; 7];
    type ThreadWords = [Word; 36];

    fn from_words(words: &[Word]) -> u64 {
        u64::from_le_bytes(*words.as_flattened().first_chunk().expect("a counter has two words"))
    }

    fn write_to(self, words: &mut [Word]) {
        words[..2].as_flattened_mut().copy_from_slice(&self.to_le_bytes());
    }

    fn next(self) -> Option<u64> {
        self.checked_add(1)
    }
}
