//! Finds the entry of a unit in a branch.

use crate::icu_char16trie::encoded::{
    delta_end, entry_child, lower_part, short_end, two_at, unit_at,
};
use crate::icu_char16trie::impl_const::{
    MAX_BRANCH_LINEAR_SUB_NODE_LENGTH, MIN_TWO_UNIT_DELTA_LEAD, VALUE_IS_FINAL,
};
use crate::icu_zerovec::ZeroSlice;
use crate::support::prelude::*;

/// Returns the index of the child node of `unit` in a row, which has at most five entries.
#[inline(always)]
fn child_in_row(units: ZeroSlice<'_, u16>, row: usize, length: usize, unit: u16) -> Option<usize> {
    let mut left = length;
    let mut place = row;
    while left > 1 {
        let (first, value) = two_at(units, place)?;
        if first == unit {
            return entry_child(units, place + 2, value);
        }
        place = short_end(place + 2, value % VALUE_IS_FINAL);
        left -= 1;
    }
    let last = unit_at(units, place)?;
    (last == unit).then_some(place + 1)
}

/// Returns the half of a part that contains the entry of `unit`, if there is one: its index and its
/// number of entries. The part has more than five entries.
#[inline(always)]
fn half_of_part(
    units: ZeroSlice<'_, u16>,
    part: usize,
    length: usize,
    unit: u16,
) -> Option<(usize, usize)> {
    let (split, delta) = two_at(units, part)?;
    let half = length >> 1;
    if delta < MIN_TWO_UNIT_DELTA_LEAD {
        // For nearly all deltas the unit is the number itself. The processor cannot predict which
        // half it is, so the choice is made without a branch instruction.
        let (low, left) = if unit < split {
            (usize::from(delta), half)
        } else {
            (0, length - half)
        };
        return Some((part + 2 + low, left));
    }
    if unit < split {
        let low = lower_part(units, part + 2, delta)?;
        Some((low, half))
    } else {
        Some((delta_end(part + 2, delta), length - half))
    }
}

/// Returns the index of the child node of `unit` in a part of a branch.
#[inline(always)]
pub(crate) fn child_in_part(
    units: ZeroSlice<'_, u16>,
    part: usize,
    length: usize,
    unit: u16,
) -> Option<usize> {
    let mut left = length;
    let mut place = part;
    while left > MAX_BRANCH_LINEAR_SUB_NODE_LENGTH {
        let (half, count) = half_of_part(units, place, left, unit)?;
        place = half;
        left = count;
    }
    child_in_row(units, place, left, unit)
}

/// Returns the index of the child node of `unit` in the branch of a match node. `low` is the low
/// six bits of the node's lead unit, and `place` is the index after the lead and its value.
#[inline(always)]
pub(crate) fn child_in_branch(
    units: ZeroSlice<'_, u16>,
    place: usize,
    low: u16,
    unit: u16,
) -> Option<usize> {
    let (part, length) = if low > 0 {
        (place, low)
    } else {
        (place + 1, unit_at(units, place)?)
    };
    child_in_part(units, part, usize::from(length) + 1, unit)
}
