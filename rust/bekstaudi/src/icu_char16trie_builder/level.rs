//! Writes one level of a trie in front of what it leads to. Indices are counted from the end of the
//! units, so they stay the same while more units are written.

use crate::icu_char16trie::impl_const::{MAX_LINEAR_MATCH_LENGTH, MIN_LINEAR_MATCH};
use crate::icu_char16trie_builder::write::{
    put_all, put_delta, put_final, put_one, put_short, put_value,
};
use crate::support::AllocError;
use crate::support::prelude::*;

/// Writes a node that has only a value.
#[inline]
fn write_final(out: &mut Vec<u16>, value: i32) -> Result<(), AllocError> {
    put_final(out, value.cast_unsigned())?;
    Ok(())
}

/// Writes the unit of the last entry of a row, in front of its node.
#[inline]
pub(crate) fn write_last(out: &mut Vec<u16>, unit: u16) -> Result<(), AllocError> {
    put_one(out, unit)?;
    Ok(())
}

/// Writes an entry of a row in front of the others: its unit, and a jump to its node, which is
/// `from_end` units before the end.
#[inline]
pub(crate) fn write_jump(out: &mut Vec<u16>, unit: u16, from_end: usize) -> Result<(), AllocError> {
    let jump = out.len().saturating_sub(from_end);
    put_short(out, jump as u32)?;
    put_one(out, unit)?;
    Ok(())
}

/// Writes an entry of a row in front of the others: its unit, and the value of the key that ends
/// there.
#[inline]
pub(crate) fn write_value(out: &mut Vec<u16>, unit: u16, value: i32) -> Result<(), AllocError> {
    put_final(out, value.cast_unsigned())?;
    put_one(out, unit)?;
    Ok(())
}

/// Writes a split in front of the part with the upper entries: a split unit, and a delta to the
/// part with the lower ones. The lower part is `from_end` units before the end.
#[inline]
pub(crate) fn write_split(
    out: &mut Vec<u16>,
    unit: u16,
    from_end: usize,
) -> Result<(), AllocError> {
    let delta = out.len().saturating_sub(from_end);
    put_delta(out, delta as u32)?;
    put_one(out, unit)?;
    Ok(())
}

/// Writes the lead of a match node with these low six bits, and the value of the empty key, if
/// there is one.
#[inline]
fn write_lead(out: &mut Vec<u16>, low: u16, value: Option<i32>) -> Result<(), AllocError> {
    match value {
        Some(value) => put_value(out, value.cast_unsigned(), low)?,
        None => put_one(out, low)?,
    }
    Ok(())
}

/// Writes the length of a branch in front of its part, if it needs a unit of its own. Returns the
/// low six bits of the lead.
#[inline]
fn write_length(out: &mut Vec<u16>, count: usize) -> Result<u16, AllocError> {
    if count <= MIN_LINEAR_MATCH as usize {
        return Ok((count - 1) as u16);
    }
    put_one(out, (count - 1) as u16)?;
    Ok(0)
}

/// Writes the beginning of a branch with `count` entries, in front of its part: its lead, the value
/// of the empty key, if there is one, and its length.
#[inline]
pub(crate) fn write_branch(
    out: &mut Vec<u16>,
    count: usize,
    value: Option<i32>,
) -> Result<(), AllocError> {
    let low = write_length(out, count)?;
    write_lead(out, low, value)?;
    Ok(())
}

/// Writes a linear match in front of its node, and the value of the empty key, if there is one.
#[inline]
pub(crate) fn write_run(
    out: &mut Vec<u16>,
    units: &[u16],
    value: Option<i32>,
) -> Result<(), AllocError> {
    put_all(out, units)?;
    write_lead(out, MIN_LINEAR_MATCH - 1 + units.len() as u16, value)?;
    Ok(())
}

/// Writes the node of a single entry whose key has these units: linear matches, and the value after
/// them.
#[inline]
pub(crate) fn write_tail(out: &mut Vec<u16>, units: &[u16], value: i32) -> Result<(), AllocError> {
    write_final(out, value)?;
    let mut left = units.len();
    while left > 0 {
        let start = left.saturating_sub(MAX_LINEAR_MATCH_LENGTH as usize);
        write_run(out, &units[start..left], None)?;
        left = start;
    }
    Ok(())
}
