//! The 18-bit form of data offsets in an index-3 block: nine cells for eight offsets.

use crate::support::AllocError;
use crate::support::prelude::*;

/// Returns bits 16 and 17 of an offset.
#[inline]
fn upper_bits(offsets: &[u32], i: usize) -> u32 {
    offsets[i] / 0x10000
}

/// Returns the cell with bits 16 and 17 of the eight offsets from `at` on. The first offset's bits
/// are at the top.
#[inline]
fn high_cell(offsets: &[u32], at: usize) -> u32 {
    let front = upper_bits(offsets, at) * 0x4000
        + upper_bits(offsets, at + 1) * 0x1000
        + upper_bits(offsets, at + 2) * 0x400
        + upper_bits(offsets, at + 3) * 0x100;
    let back = upper_bits(offsets, at + 4) * 0x40
        + upper_bits(offsets, at + 5) * 0x10
        + upper_bits(offsets, at + 6) * 4
        + upper_bits(offsets, at + 7);
    front + back
}

/// Appends the nine cells of the eight offsets from `8 * group` on to `packed`.
#[inline]
fn push_group(packed: &mut Vec<u32>, offsets: &[u32], group: usize) -> Result<(), AllocError> {
    packed.try_push(high_cell(offsets, 8 * group))?;
    for q in 0..8 {
        packed.try_push(offsets[8 * group + q] % 0x10000)?;
    }
    Ok(())
}

/// Returns the offsets in the 18-bit form.
#[inline]
pub(crate) fn pack(offsets: &[u32]) -> Result<Vec<u32>, AllocError> {
    let mut packed = Vec::with_room(offsets.len() / 8 * 9)?;
    for group in 0..offsets.len() / 8 {
        push_group(&mut packed, offsets, group)?;
    }
    Ok(packed)
}
