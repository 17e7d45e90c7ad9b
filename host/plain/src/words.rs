//! Little-endian 32-bit words in a byte slice.

/// A word as its bytes lie in a region.
pub(crate) type Word = [u8; 4];

/// Bytes of a word.
pub(crate) const WORD: usize = size_of::<Word>();

/// The word of that index, counted from 0. Panics past the end.
pub(crate) fn word(bytes: &[u8], index: usize) -> u32 {
    let word = bytes[WORD * index..].first_chunk().expect("the word is in the slice");
    u32::from_le_bytes(*word)
}

/// Words one behind the other, as many in each of the kind.
pub trait Block: Copy + AsRef<[Word]> + AsMut<[Word]> {
    /// How many.
    const WORDS: usize;

    /// The blocks that so many words are.
    fn all_of(words: &[Word]) -> &[Self];

    /// The same, to be written.
    fn all_of_mut(words: &mut [Word]) -> &mut [Self];
}

impl<const N: usize> Block for [Word; N] {
    const WORDS: usize = N;

    fn all_of(words: &[Word]) -> &[[Word; N]] {
        words.as_chunks().0
    }

    fn all_of_mut(words: &mut [Word]) -> &mut [[Word; N]] {
        words.as_chunks_mut().0
    }
}
