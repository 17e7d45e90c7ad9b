//! What a thread may do.

use core::fmt;

use crate::Refusal;

/// What one thread may do. The empty list, [`Permission::NONE`], grants nothing.
///
/// From a number it comes by [`TryFrom`]. A number above 3 is refused as
/// [`Refusal::Shape`], which is what the library's calls answer for it.
///
/// ```
/// use mound::{Permission, Refusal};
///
/// assert!(Permission::PUT.may_put() && !Permission::PUT.may_take());
/// assert_eq!(Permission::try_from(3_u8), Ok(Permission::PUT_AND_TAKE));
/// assert_eq!(Permission::try_from(4_u8), Err(Refusal::Shape));
/// assert_eq!(Permission::PUT_AND_TAKE.to_string(), "put and take");
/// ```
#[derive(Clone, Copy, Debug, Default, PartialEq, Eq, Hash)]
pub struct Permission(u8);

impl Permission {
    /// The empty list: neither put nor take.
    pub const NONE: Permission = Permission(0);
    /// Put alone.
    pub const PUT: Permission = Permission(1);
    /// Take alone, which grants lists too.
    pub const TAKE: Permission = Permission(2);
    /// Put and take.
    pub const PUT_AND_TAKE: Permission = Permission(3);

    /// Its value in a region: bit 0 for put, bit 1 for take.
    #[inline]
    #[must_use]
    pub const fn value(self) -> u8 {
        self.0
    }

    /// Whether it grants puts.
    #[inline]
    #[must_use]
    pub const fn may_put(self) -> bool {
        self.0 & Permission::PUT.0 != 0
    }

    /// Whether it grants takes and lists.
    #[inline]
    #[must_use]
    pub const fn may_take(self) -> bool {
        self.0 & Permission::TAKE.0 != 0
    }
}

/// The permission of that value; [`Refusal::Shape`] above 3.
impl TryFrom<u8> for Permission {
    type Error = Refusal;

    #[inline]
    fn try_from(value: u8) -> Result<Permission, Refusal> {
        if value <= Permission::PUT_AND_TAKE.0 {
            Ok(Permission(value))
        } else {
            Err(Refusal::Shape)
        }
    }
}

/// The permission of that value, as a word of a region has it; [`Refusal::Shape`] above 3.
impl TryFrom<u32> for Permission {
    type Error = Refusal;

    #[inline]
    fn try_from(value: u32) -> Result<Permission, Refusal> {
        u8::try_from(value).map_err(|_| Refusal::Shape)?.try_into()
    }
}

/// Its [value](Permission::value).
impl From<Permission> for u8 {
    #[inline]
    fn from(permission: Permission) -> u8 {
        permission.value()
    }
}

/// Its [value](Permission::value), as a word of a region has it.
impl From<Permission> for u32 {
    #[inline]
    fn from(permission: Permission) -> u32 {
        permission.value().into()
    }
}

/// What it grants: `none`, `put`, `take` or `put and take`.
impl fmt::Display for Permission {
    fn fmt(&self, f: &mut fmt::Formatter<'_>) -> fmt::Result {
        f.pad(match (self.may_put(), self.may_take()) {
            (false, false) => "none",
            (true, false) => "put",
            (false, true) => "take",
            (true, true) => "put and take",
        })
    }
}
