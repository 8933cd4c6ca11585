//! Values that are stored as one to four bytes.

use crate::support::prelude::*;
/// A value of one to four bytes that can be read in place, without a copy, at any address.
///
/// It is implemented for `u8`, `u16`, `u32`, `i8`, `i16`, `i32`, `char` and
/// [`PotentialCodePoint`](crate::icu_zerovec::PotentialCodePoint), each stored lowest byte first and the last
/// two in three bytes. You can implement it for your own type if packing and then unpacking a value
/// returns that value. Several byte sequences may unpack to the same value, such as a flag that any
/// byte except zero turns on.
///
/// ```
/// use bekstaudi::zerovec::{ZeroVec, ule::AsULE};
///
/// /// A general category, stored in one byte. There are 30 of them.
/// #[derive(Clone, Copy, Debug, PartialEq, Eq)]
/// struct Category(u8);
///
/// impl AsULE for Category {
///     const WIDTH: usize = 1;
///
///     fn to_unaligned(self) -> [u8; 4] {
///         [self.0, 0, 0, 0]
///     }
///
///     fn from_unaligned(bytes: &[u8]) -> Option<Self> {
///         (bytes[0] < 30).then_some(Category(bytes[0]))
///     }
/// }
///
/// let categories = ZeroVec::<Category>::parse_bytes(&[1, 29])?;
/// assert_eq!(categories.get(1), Some(Category(29)));
/// assert!(ZeroVec::<Category>::parse_bytes(&[30]).is_err());
/// # Ok::<(), Box<dyn std::error::Error>>(())
/// ```
pub trait AsULE: Copy {
    /// The number of bytes of a value, 1 to 4.
    const WIDTH: usize;

    /// Returns the packed bytes of the value, followed by zeros: `0x1234_u16` gives `[0x34, 0x12,
    /// 0, 0]`.
    fn to_unaligned(self) -> [u8; 4];

    /// Returns the value of these bytes, or `None` if they are not a value. `bytes` must have
    /// length `WIDTH`.
    ///
    /// # Panics
    /// Panics if there are fewer than `WIDTH` bytes.
    fn from_unaligned(bytes: &[u8]) -> Option<Self>;
}

/// The error for bytes that are not a packed vector.
#[derive(Clone, Copy, Debug, PartialEq, Eq, Hash)]
#[non_exhaustive]
pub enum UleError {
    /// The number of bytes is not a multiple of the width of a value.
    Length,
    /// The cell at this index, counted from 0, is the first one that is not a value.
    Cell(usize),
}

impl core::fmt::Display for UleError {
    #[inline]
    fn fmt(&self, f: &mut core::fmt::Formatter<'_>) -> core::fmt::Result {
        match self {
            UleError::Length => {
                f.write_str("the number of bytes is no multiple of the width of a value")
            }
            UleError::Cell(field) => write!(f, "cell {field} is no value"),
        }
    }
}

impl core::error::Error for UleError {}
