//! Numbers encoded in the units of a trie.

use crate::icu_char16trie::impl_const::{
    MIN_LINEAR_MATCH, MIN_TWO_UNIT_DELTA_LEAD, MIN_TWO_UNIT_NODE_LEAD, MIN_TWO_UNIT_VALUE_LEAD,
    THREE_UNIT_DELTA_LEAD, THREE_UNIT_NODE_LEAD, THREE_UNIT_VALUE_LEAD, VALUE_IS_FINAL,
};
use crate::icu_zerovec::ZeroSlice;
use crate::support::prelude::*;

/// Returns the unit at an index, or `None` at or past the end.
#[inline(always)]
pub(crate) fn unit_at(units: ZeroSlice<'_, u16>, place: usize) -> Option<u16> {
    // A packed vector has fewer than 2^63 bytes, so adding to an index that was read never wraps.
    // One read of both bytes, also if only bits of the low one are used.
    let cells = units.as_bytes().as_chunks::<2>().0;
    Some(u16::from_le_bytes(*cells.get(place)?))
}

/// Returns the units at an index and at the one after it, with a single bounds check. `None` if
/// either is missing.
#[inline(always)]
pub(crate) fn two_at(units: ZeroSlice<'_, u16>, place: usize) -> Option<(u16, u16)> {
    let second = unit_at(units, place + 1)?;
    Some((units.at(place), second))
}

/// Returns the number with these two halves.
#[inline]
pub(crate) fn from_halves(high: u16, low: u16) -> u32 {
    (u32::from(high) << 16) | u32::from(low)
}

/// Returns the number with this high half, whose low half is at `place`.
#[inline]
fn low_half(units: ZeroSlice<'_, u16>, place: usize, high: u16) -> Option<u32> {
    let low = unit_at(units, place)?;
    Some(from_halves(high, low))
}

/// Returns the number in the two units at `place`, the high half first.
#[inline]
fn both_halves(units: ZeroSlice<'_, u16>, place: usize) -> Option<u32> {
    let high = unit_at(units, place)?;
    low_half(units, place + 1, high)
}

/// Returns the number with this lead. A lead below `two` is the number itself. A lead from there to
/// below `three` is `two` plus the high half. For any other lead both halves are at `place`.
#[inline(always)]
fn number_by(
    units: ZeroSlice<'_, u16>,
    place: usize,
    lead: u16,
    two: u16,
    three: u16,
) -> Option<u32> {
    if lead < two {
        Some(u32::from(lead))
    } else if lead < three {
        low_half(units, place, lead - two)
    } else {
        both_halves(units, place)
    }
}

/// Returns the index after a number that has more units than its lead. It is not inlined: nearly
/// all numbers are their leads, so a search that skips many of them can read ahead before it has
/// seen their values.
#[cold]
#[inline(never)]
fn far_end(place: usize, lead: u16, three: u16) -> usize {
    if lead < three { place + 1 } else { place + 2 }
}

/// Returns the index after a number with this lead.
#[inline(always)]
fn end_by(place: usize, lead: u16, two: u16, three: u16) -> usize {
    if lead < two {
        place
    } else {
        far_end(place, lead, three)
    }
}

/// Returns the number of units in a linear match with these low six bits.
#[inline(always)]
pub(crate) fn run_len(low: u16) -> usize {
    usize::from(low) - (MIN_LINEAR_MATCH as usize - 1)
}

/// Returns the number of a final value or a jump. `low_bits` is the low 15 bits of the unit before
/// `place`.
#[inline]
pub(crate) fn short_number(units: ZeroSlice<'_, u16>, place: usize, low_bits: u16) -> Option<u32> {
    number_by(
        units,
        place,
        low_bits,
        MIN_TWO_UNIT_VALUE_LEAD,
        THREE_UNIT_VALUE_LEAD,
    )
}

/// Returns the index after the number of a final value or a jump.
#[inline]
pub(crate) fn short_end(place: usize, low_bits: u16) -> usize {
    end_by(
        place,
        low_bits,
        MIN_TWO_UNIT_VALUE_LEAD,
        THREE_UNIT_VALUE_LEAD,
    )
}

/// Returns the number of an intermediate value. Its lead unit is before `place`.
#[inline]
pub(crate) fn node_number(units: ZeroSlice<'_, u16>, place: usize, lead: u16) -> Option<u32> {
    number_by(
        units,
        place,
        (lead >> 6) - 1,
        MIN_TWO_UNIT_NODE_LEAD,
        THREE_UNIT_NODE_LEAD,
    )
}

/// Returns the index after an intermediate value, or `place` itself if the lead unit has no value.
#[inline]
pub(crate) fn node_end(place: usize, lead: u16) -> usize {
    end_by(
        place,
        (lead >> 6).saturating_sub(1),
        MIN_TWO_UNIT_NODE_LEAD,
        THREE_UNIT_NODE_LEAD,
    )
}

/// Returns the delta of a split. `delta` is the unit before `place`.
#[inline]
pub(crate) fn delta_number(units: ZeroSlice<'_, u16>, place: usize, delta: u16) -> Option<u32> {
    number_by(
        units,
        place,
        delta,
        MIN_TWO_UNIT_DELTA_LEAD,
        THREE_UNIT_DELTA_LEAD,
    )
}

/// Returns the index after the delta of a split.
#[inline]
pub(crate) fn delta_end(place: usize, delta: u16) -> usize {
    end_by(place, delta, MIN_TWO_UNIT_DELTA_LEAD, THREE_UNIT_DELTA_LEAD)
}

/// Returns the index of the node of an entry whose value unit is before `place`.
#[inline]
pub(crate) fn entry_child(units: ZeroSlice<'_, u16>, place: usize, value: u16) -> Option<usize> {
    if value < VALUE_IS_FINAL {
        let jump = short_number(units, place, value)?;
        Some(short_end(place, value) + jump as usize)
    } else {
        Some(place - 1)
    }
}

/// Returns the index of the part with the lower entries of a branch. `delta` is the unit before
/// `place`.
#[inline]
pub(crate) fn lower_part(units: ZeroSlice<'_, u16>, place: usize, delta: u16) -> Option<usize> {
    let number = delta_number(units, place, delta)?;
    Some(delta_end(place, delta) + number as usize)
}
