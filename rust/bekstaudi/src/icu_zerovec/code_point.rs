//! Code points as packed values of three bytes, lowest byte first.

use crate::icu_zerovec::ule::AsULE;
use crate::support::prelude::*;

/// The exclusive end of the code space, 0x110000: one more than the last code point.
pub const CODE_POINT_LIMIT: u32 = 0x11_0000;

/// A 24-bit number that may be a code point, such as one read from a file. It is stored in three
/// bytes, and compared and hashed by its number.
///
/// ```
/// use bekstaudi::zerovec::PotentialCodePoint;
///
/// let last = PotentialCodePoint::try_from(0x10FFFF);
/// assert_eq!(last.map(u32::from), Ok(0x10FFFF));
/// assert_eq!(PotentialCodePoint::try_from(0x1000000), Err(0x1000000));
/// ```
#[derive(Clone, Copy, Debug, PartialEq, Eq, PartialOrd, Ord, Hash)]
pub struct PotentialCodePoint {
    number: u32,
}

impl PotentialCodePoint {
    /// Returns `number` as a potential code point. It must be below 0x1000000; if that is not
    /// known, use `try_from`.
    #[inline]
    pub(crate) fn from_u24(number: u32) -> Self {
        PotentialCodePoint { number }
    }
}

/// Fails if the number needs more than 24 bits, and returns the number as the error.
impl TryFrom<u32> for PotentialCodePoint {
    type Error = u32;

    #[inline]
    fn try_from(number: u32) -> Result<PotentialCodePoint, u32> {
        if number < 0x100_0000 {
            Ok(PotentialCodePoint { number })
        } else {
            Err(number)
        }
    }
}

/// Returns the number, whether or not it is a code point.
impl From<PotentialCodePoint> for u32 {
    #[inline]
    fn from(point: PotentialCodePoint) -> u32 {
        point.number
    }
}

/// Any three bytes are a 24-bit number.
impl AsULE for PotentialCodePoint {
    const WIDTH: usize = 3;

    #[inline]
    fn to_unaligned(self) -> [u8; 4] {
        self.number.to_le_bytes()
    }

    #[inline]
    fn from_unaligned(bytes: &[u8]) -> Option<PotentialCodePoint> {
        Some(PotentialCodePoint {
            number: u32::from_le_bytes([bytes[0], bytes[1], bytes[2], 0]),
        })
    }
}

/// Three bytes are a `char` if their number is a Unicode scalar value: 0..=0xD7FF or
/// 0xE000..=0x10FFFF. A surrogate is not a `char`.
impl AsULE for char {
    const WIDTH: usize = 3;

    #[inline]
    fn to_unaligned(self) -> [u8; 4] {
        (self as u32).to_le_bytes()
    }

    #[inline]
    fn from_unaligned(bytes: &[u8]) -> Option<char> {
        char::from_u32(u32::from_le_bytes([bytes[0], bytes[1], bytes[2], 0]))
    }
}
