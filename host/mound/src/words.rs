//! Little-endian 32-bit words in a byte slice.

/// A word as its bytes lie in a region.
pub(crate) type Word = [u8; 4];

/// Bytes of a word.
pub(crate) const WORD: usize = size_of::<Word>();

/// The word of that index, counted from 0. Panics past the end.
pub(crate) fn word(bytes: &[u8], index: usize) -> u32 {
    let word = bytes[WORD * index..].first_chunk().expect("the word is in the slice");
    u32::from_le_bytes(*word)
}
