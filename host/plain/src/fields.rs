//! The region's words and the places by the names of document 01, and the greatest values.

/// The greatest key of an item.
pub(crate) const GREATEST_KEY: u32 = u32::MAX - 1;
pub(crate) const GREATEST_TAG: u32 = 65_535;
/// The bits of a permission.
pub(crate) const MAY_PUT: u32 = 1;
pub(crate) const MAY_TAKE: u32 = 2;
pub(crate) const GREATEST_PERMISSION: u32 = MAY_PUT | MAY_TAKE;
/// The tree's first node.
pub(crate) const ROOT: u32 = 1;

/// The words of the heading that follow the shape.
pub(crate) mod heading {
    pub const PRESENT_DEPTH: usize = 4;
    pub const FIRST_FREE_CELL: usize = 5;
}

/// The words of a node; the counter has one or two.
pub(crate) mod node {
    pub const FIRST_CELL: usize = 0;
    pub const DIRTY: usize = 1;
    pub const COUNTER: usize = 2;
}

/// The words of a cell behind its key.
pub(crate) mod cell {
    pub const TAG: usize = 1;
    pub const NEXT: usize = 2;
}

/// The words of a thread's record, in order from 0. Its three node copies come last.
#[derive(Clone, Copy)]
pub(crate) enum Field {
    Permission,
    Place,
    Key,
    Tag,
    OwnCell,
    D,
    Leaf,
    Tries,
    Lo,
    Hi,
    Node,
    Waiting,
    After,
    ResultKey,
    ResultTag,
    Copies,
}

/// Where a thread stands, numbered from 0: idle, in a put (I), in a take (E), in mending (M), in a
/// list (17 to 19, which have no other name).
#[derive(Clone, Copy)]
pub(crate) enum Place {
    Idle,
    I1,
    I2,
    I3,
    I4,
    I5,
    I6,
    I7,
    I8,
    E1,
    E2,
    M1,
    M2,
    M3,
    M4,
    M5,
    M6,
    P17,
    P18,
    P19,
}

impl Place {
    /// The places in the order of their numbers.
    pub const ALL: [Place; 20] = [
        Place::Idle,
        Place::I1,
        Place::I2,
        Place::I3,
        Place::I4,
        Place::I5,
        Place::I6,
        Place::I7,
        Place::I8,
        Place::E1,
        Place::E2,
        Place::M1,
        Place::M2,
        Place::M3,
        Place::M4,
        Place::M5,
        Place::M6,
        Place::P17,
        Place::P18,
        Place::P19,
    ];
    pub const LAST: Place = Place::P19;
}

/// What follows the mending of the root, numbered from 0.
#[derive(Clone, Copy)]
pub(crate) enum After {
    /// Back to E1.
    TakeAgain,
    /// A take answers its result.
    AnswerResult,
    /// Back to 17.
    ListAgain,
    /// On to 19.
    HandOut,
}

impl After {
    /// All of them in the order of their numbers.
    pub const ALL: [After; 4] =
        [After::TakeAgain, After::AnswerResult, After::ListAgain, After::HandOut];
    pub const LAST: After = After::HandOut;
}
