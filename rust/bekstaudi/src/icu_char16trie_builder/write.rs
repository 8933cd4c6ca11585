//! Encodes the numbers of a trie as units. They are written from the end of the trie to its front:
//! a unit that is pushed later comes earlier.

use crate::icu_char16trie::impl_const::{
    MIN_TWO_UNIT_DELTA_LEAD, MIN_TWO_UNIT_NODE_LEAD, MIN_TWO_UNIT_VALUE_LEAD, MIN_VALUE_LEAD,
    THREE_UNIT_DELTA_LEAD, THREE_UNIT_NODE_LEAD, THREE_UNIT_VALUE_LEAD, VALUE_IS_FINAL,
};
use crate::support::AllocError;
use crate::support::prelude::*;

/// Writes one unit in front of the others.
#[inline]
pub(crate) fn put_one(out: &mut Vec<u16>, first: u16) -> Result<(), AllocError> {
    out.try_push(first)?;
    Ok(())
}

/// Writes the units that follow a number's lead, and returns the lead. A number below `two` is its
/// own lead. If its high half is below `three - two`, the lead is `two` plus the high half.
/// Otherwise the lead is `three`.
#[inline]
fn put_tail(out: &mut Vec<u16>, number: u32, two: u16, three: u16) -> Result<u16, AllocError> {
    if number < u32::from(two) {
        return Ok(number as u16);
    }
    let high = (number >> 16) as u16;
    out.try_push((number & 0xffff) as u16)?;
    if number < u32::from(three - two) * 0x10000 {
        return Ok(two + high);
    }
    out.try_push(high)?;
    Ok(three)
}

/// Writes the jump of an entry: one unit below 0x4000, two below 0x3FFF_0000, and otherwise three.
#[inline]
pub(crate) fn put_short(out: &mut Vec<u16>, number: u32) -> Result<(), AllocError> {
    let lead = put_tail(out, number, MIN_TWO_UNIT_VALUE_LEAD, THREE_UNIT_VALUE_LEAD)?;
    put_one(out, lead)
}

/// Writes a final value: one unit below 0x4000, two below 0x3FFF_0000, and otherwise three.
#[inline]
pub(crate) fn put_final(out: &mut Vec<u16>, number: u32) -> Result<(), AllocError> {
    let lead = put_tail(out, number, MIN_TWO_UNIT_VALUE_LEAD, THREE_UNIT_VALUE_LEAD)?;
    put_one(out, VALUE_IS_FINAL + lead)
}

/// Writes the lead of a match node with these low six bits and a value: one unit below 0x100, two
/// below 0xFE_0000, and otherwise three.
#[inline]
pub(crate) fn put_value(out: &mut Vec<u16>, number: u32, low: u16) -> Result<(), AllocError> {
    let lead = put_tail(out, number, MIN_TWO_UNIT_NODE_LEAD, THREE_UNIT_NODE_LEAD)?;
    put_one(out, (lead + 1) * MIN_VALUE_LEAD + low)
}

/// Writes the delta of a split: one unit below 0xFC00, two below 0x03FF_0000, and otherwise three.
#[inline]
pub(crate) fn put_delta(out: &mut Vec<u16>, number: u32) -> Result<(), AllocError> {
    let lead = put_tail(out, number, MIN_TWO_UNIT_DELTA_LEAD, THREE_UNIT_DELTA_LEAD)?;
    put_one(out, lead)
}

/// Writes units in front of the others.
#[inline]
pub(crate) fn put_all(out: &mut Vec<u16>, units: &[u16]) -> Result<(), AllocError> {
    let mut left = units.len();
    while left > 0 {
        left -= 1;
        put_one(out, units[left])?;
    }
    Ok(())
}
