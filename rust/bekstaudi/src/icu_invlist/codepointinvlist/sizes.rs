//! How many code points a list of boundaries contains.

use crate::icu_zerovec::{CODE_POINT_LIMIT, PotentialCodePoint, ZeroVec};
use crate::support::prelude::*;

/// Returns the number of code points in the set with these boundaries, or `None` if they are not an
/// inversion list.
///
/// In the loop, `size` is the number of code points below the last boundary that are in the set or,
/// after an odd number of boundaries, of those that are not.
pub(crate) fn valid_size(ends: &ZeroVec<'_, PotentialCodePoint>) -> Option<u32> {
    if !ends.len().is_multiple_of(2) {
        return None;
    }
    let mut next = 0;
    let mut size = 0;
    for end in ends.iter() {
        let end = u32::from(end);
        if end < next || end > CODE_POINT_LIMIT {
            return None;
        }
        size = end - size;
        next = end + 1;
    }
    Some(size)
}

/// Returns the number of code points in the set with these boundaries. LLVM vectorises the sum.
#[inline]
pub(crate) fn size_of(ends: &[u32]) -> u32 {
    let mut size = 0;
    for i in 0..ends.len() / 2 {
        size += ends[2 * i + 1] - ends[2 * i];
    }
    size
}
