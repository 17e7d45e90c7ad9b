//! Values that the places compare, from the least to the greatest.

use crate::queue::Item;

/// The value of a node: the item of its head cell, or none where its list is empty.
pub type Value = Option<Item>;

/// Request 2's order, written down: by key, then by tag, and an empty node above every item. Only a
/// region that was never laid out holds a key of 4,294,967,295.
pub const RISING: [Value; 8] = [
    Some((4, 65_535)),
    Some((5, 2)),
    Some((5, 9)),
    Some((6, 0)),
    Some((u32::MAX - 1, 65_535)),
    Some((u32::MAX, 0)),
    Some((u32::MAX, 65_535)),
    None,
];

/// Whether a node's value is less than an item: an empty node's never is.
pub fn is_less(value: Value, item: Item) -> bool {
    value.is_some_and(|head| head < item)
}

/// Those of them that are items.
pub fn items() -> impl Iterator<Item = Item> {
    RISING.into_iter().flatten()
}

/// Three of them, in every way.
pub fn triples() -> impl Iterator<Item = [Value; 3]> {
    let pairs = RISING.into_iter().flat_map(|one| RISING.map(|other| (one, other)));
    pairs.flat_map(|(one, other)| RISING.map(|third| [one, other, third]))
}

/// How many of these values are less than this one.
pub fn rank(value: Value) -> usize {
    RISING.iter().position(|&other| other == value).expect("one of these values")
}
