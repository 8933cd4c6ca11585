//! Sets of code points in ICU's serialized form, which `uset_serialize` writes and
//! `uset_getSerializedSet` reads.
//!
//! The form consists of 16-bit units. The first unit is the number of units that the boundaries
//! take. The boundaries of the inversion list follow, without a last 0x110000.
//!
//! A boundary below 0x10000 takes one unit. If there are larger ones, bit 15 of the first unit is
//! set, and the second unit is the number of boundaries below 0x10000. Each larger boundary takes
//! two units, the upper 16 bits first.
//!
//! For example, the set of `a` to `z` and U+1F600 to U+10FFFF is `[0x8004, 2, 0x61, 0x7B, 1,
//! 0xF600]`.
//!
//! ```
//! use bekstaudi::codepointinvlist::{CodePointInversionList, serialized};
//!
//! let set = CodePointInversionList::try_from('a'..='z')?;
//! let units = serialized::to_serialized(&set)?;
//! assert_eq!(units, [2, 0x61, 0x7B]);
//! assert_eq!(serialized::from_serialized(&units)?.0, set);
//! # Ok::<(), Box<dyn std::error::Error>>(())
//! ```

use crate::icu_invlist::codepointinvlist::CodePointInversionList;
pub use crate::icu_invlist_binary::error::{SerializeError, SerializedSetError, WriteError};
use crate::icu_invlist_binary::lent_ends::{lent_ends, serialized_length};
use crate::icu_invlist_binary::target::{put_ends, put_unit};
use crate::icu_zerovec::{CODE_POINT_LIMIT, PotentialCodePoint, ZeroSlice};
use crate::support::prelude::*;

/// The greatest number of units that the boundaries may take.
const MOST_UNITS: usize = 0x7FFF;

/// The number of units that the boundaries take, and the number of boundaries of one unit.
#[derive(Clone, Copy, Debug)]
struct Counts {
    units: usize,
    singles: usize,
}

/// Counts the units of the boundaries.
fn counts_of(ends: ZeroSlice<'_, PotentialCodePoint>) -> Counts {
    let mut units = 0;
    let mut singles = 0;
    for i in 0..ends.len() {
        let end = u32::from(ends.at(i));
        if end < 0x1_0000 {
            singles += 1;
            units += 1;
        } else if end < CODE_POINT_LIMIT {
            units += 2;
        }
    }
    Counts { units, singles }
}

impl Counts {
    /// Returns the number of units that the whole set takes.
    #[inline]
    fn len(&self) -> usize {
        if self.singles < self.units {
            self.units + 2
        } else {
            self.units + 1
        }
    }
}

/// Writes the units before those of the boundaries to the start of `target`. Returns the index
/// after them.
#[inline]
fn put_head(target: &mut [u16], counts: Counts) -> usize {
    if counts.singles < counts.units {
        let second = put_unit(target, 0, 0x8000 + counts.units as u16);
        put_unit(target, second, counts.singles as u16)
    } else {
        put_unit(target, 0, counts.units as u16)
    }
}

/// Writes the set with these boundaries to the start of `target`.
#[inline]
fn put_set(target: &mut [u16], counts: Counts, ends: ZeroSlice<'_, PotentialCodePoint>) {
    let at = put_head(target, counts);
    put_ends(target, at, ends);
}

/// Returns the number of units of the set in ICU's serialized form, or `None` if the boundaries
/// take more than 0x7FFF units. Such a set has no serialized form.
///
/// ICU: `uset_serialize` returns this number.
#[must_use]
#[inline]
pub fn serialized_len(set: &CodePointInversionList<'_>) -> Option<usize> {
    let counts = counts_of(set.as_inversion_list());
    if counts.units > MOST_UNITS {
        return None;
    }
    Some(counts.len())
}

/// Returns the set in ICU's serialized form, as `uset_serialize` writes it.
///
/// ```
/// use bekstaudi::codepointinvlist::CodePointInversionList;
/// use bekstaudi::codepointinvlist::serialized::to_serialized;
///
/// let set: CodePointInversionList = [0x61..=0x7A, 0x1F600..=0x10FFFF].into_iter().collect();
/// assert_eq!(to_serialized(&set)?, [0x8004, 2, 0x61, 0x7B, 1, 0xF600]);
/// # Ok::<(), Box<dyn std::error::Error>>(())
/// ```
///
/// # Errors
/// - `SerializeError::TooLong` if and only if the boundaries take more than 0x7FFF units.
/// - `SerializeError::Memory` if an allocation fails.
#[inline]
pub fn to_serialized(set: &CodePointInversionList<'_>) -> Result<Vec<u16>, SerializeError> {
    let ends = set.as_inversion_list();
    let counts = counts_of(ends);
    if counts.units > MOST_UNITS {
        return Err(SerializeError::TooLong);
    }
    let mut units = try_vec![0; counts.len()]?;
    put_set(&mut units, counts, ends);
    Ok(units)
}

/// Writes the set in ICU's serialized form to the start of `target`, and returns the number of
/// units written, as `uset_serialize` does.
///
/// The other units in `target` are unchanged. This does not allocate.
///
/// ```
/// use bekstaudi::codepointinvlist::CodePointInversionList;
/// use bekstaudi::codepointinvlist::serialized::write_serialized;
///
/// let set = CodePointInversionList::try_from('a'..='z')?;
/// let mut units = [0; 8];
/// let len = write_serialized(&set, &mut units)?;
/// assert_eq!(units[..len], [2, 0x61, 0x7B]);
/// # Ok::<(), Box<dyn std::error::Error>>(())
/// ```
///
/// # Errors
/// - `WriteError::TooLong` if and only if the boundaries take more than 0x7FFF units.
/// - `WriteError::Short` otherwise, if and only if `target` is shorter than [`serialized_len`].
///
/// `target` is unchanged on error.
pub fn write_serialized(
    set: &CodePointInversionList<'_>,
    target: &mut [u16],
) -> Result<usize, WriteError> {
    let ends = set.as_inversion_list();
    let counts = counts_of(ends);
    if counts.units > MOST_UNITS {
        return Err(WriteError::TooLong);
    }
    let len = counts.len();
    if target.len() < len {
        return Err(WriteError::Short);
    }
    put_set(target, counts, ends);
    Ok(len)
}

/// Reads a set in ICU's serialized form, like `uset_getSerializedSet`. Returns the set at the start
/// of `units` and the number of units that it takes.
///
/// Units after the set are ignored.
///
/// # Errors
/// Returns the first variant that applies:
/// - `SerializedSetError::Short` if there is no unit, or there are fewer units than the first one
///   says.
/// - `SerializedSetError::Count` if there are fewer units of boundaries than boundaries of one
///   unit, or an odd number of units is left for boundaries of two units.
/// - `SerializedSetError::Invalid` if the boundaries are not strictly ascending, or one is above
///   0x110000.
/// - `SerializedSetError::Memory` if the units are valid and an allocation fails.
#[inline]
pub fn from_serialized(
    units: &[u16],
) -> Result<(CodePointInversionList<'static>, usize), SerializedSetError> {
    let lent = lent_ends(units)?;
    if !lent.is_valid() {
        return Err(SerializedSetError::Invalid);
    }
    let ends = lent.copied()?;
    let set = CodePointInversionList::from_valid_slice(&ends)?;
    Ok((set, serialized_length(units)))
}
