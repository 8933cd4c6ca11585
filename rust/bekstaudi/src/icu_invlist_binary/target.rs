//! Writing units into a caller's slice.

use crate::icu_zerovec::{CODE_POINT_LIMIT, PotentialCodePoint, ZeroSlice};
use crate::support::prelude::*;

/// Writes the unit at index `at`, and returns the index after it.
#[inline]
pub(crate) fn put_unit(target: &mut [u16], at: usize, unit: u16) -> usize {
    target[at] = unit;
    at + 1
}

/// Writes the units of the boundaries from index `at` on. `target` must be long enough.
#[inline]
pub(crate) fn put_ends(target: &mut [u16], at: usize, ends: ZeroSlice<'_, PotentialCodePoint>) {
    let mut next = at;
    for i in 0..ends.len() {
        let end = u32::from(ends.at(i));
        if end < 0x1_0000 {
            next = put_unit(target, next, end as u16);
        } else if end < CODE_POINT_LIMIT {
            let lower = put_unit(target, next, (end / 0x1_0000) as u16);
            next = put_unit(target, lower, (end % 0x1_0000) as u16);
        }
    }
}
