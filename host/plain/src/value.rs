//! What the places compare, change request 2: items by key, then by tag, and an empty node above
//! every item.

/// The value of a node or of a put: an item, or that of an empty list. The order is that of the
/// variants, and of items that of their fields.
#[derive(Clone, Copy, PartialEq, Eq, PartialOrd, Ord)]
pub(crate) enum Value {
    Item { key: u32, tag: u32 },
    Empty,
}
