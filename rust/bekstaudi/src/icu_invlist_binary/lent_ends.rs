//! The boundaries in serialized units, read in place.

use crate::icu_invlist_binary::error::SerializedSetError;
use crate::icu_zerovec::{CODE_POINT_LIMIT, MemoryError};
use crate::support::prelude::*;

/// Returns the unit at index `i`, or 0 if there is none.
#[inline]
fn unit_at(units: &[u16], i: usize) -> usize {
    match units.get(i) {
        Some(unit) => *unit as usize,
        None => 0,
    }
}

/// Returns the number of units before the units of the boundaries.
#[inline]
fn head_length(units: &[u16]) -> usize {
    if unit_at(units, 0) >= 0x8000 { 2 } else { 1 }
}

/// Returns the number of units that the boundaries take.
#[inline]
fn ends_length(units: &[u16]) -> usize {
    unit_at(units, 0) % 0x8000
}

/// Returns the number of boundaries that take one unit.
#[inline]
fn singles_length(units: &[u16]) -> usize {
    if unit_at(units, 0) >= 0x8000 {
        unit_at(units, 1)
    } else {
        ends_length(units)
    }
}

/// Returns the number of units that the whole set takes.
#[inline]
pub(crate) fn serialized_length(units: &[u16]) -> usize {
    head_length(units) + ends_length(units)
}

/// Returns the units of the boundaries.
#[inline]
fn units_of_ends(units: &[u16]) -> Result<&[u16], SerializedSetError> {
    let len = serialized_length(units);
    if units.len() < len {
        return Err(SerializedSetError::Short);
    }
    let ends = &units[head_length(units)..];
    Ok(&ends[..ends_length(units)])
}

/// The boundaries of a set in serialized units: those of one unit, and those of two.
#[derive(Clone, Copy, Debug)]
pub(crate) struct LentEnds<'a> {
    pub(crate) singles: &'a [u16],
    pub(crate) pairs: &'a [u16],
}

/// Returns the boundaries in the units.
#[inline]
pub(crate) fn lent_ends(units: &[u16]) -> Result<LentEnds<'_>, SerializedSetError> {
    let ends = units_of_ends(units)?;
    let singles = singles_length(units);
    if ends.len() < singles || (ends.len() - singles) % 2 == 1 {
        return Err(SerializedSetError::Count);
    }
    Ok(LentEnds {
        singles: &ends[..singles],
        pairs: &ends[singles..],
    })
}

impl<'a> LentEnds<'a> {
    /// Returns the number of boundaries.
    #[inline]
    fn count(&self) -> usize {
        self.singles.len() + self.pairs.len() / 2
    }

    /// Returns the boundary at index `i`, counted from 0.
    #[inline]
    fn end_at(&self, i: usize) -> u32 {
        let singles = self.singles.len();
        if i < singles {
            return u32::from(self.singles[i]);
        }
        let pair = 2 * (i - singles);
        u32::from(self.pairs[pair]) * 0x1_0000 + u32::from(self.pairs[pair + 1])
    }

    /// Returns true if the boundaries are an inversion list, with 0x110000 appended if their number
    /// is odd.
    #[inline]
    pub(crate) fn is_valid(&self) -> bool {
        let count = self.count();
        let mut next = 0;
        for i in 0..count {
            let end = self.end_at(i);
            if end < next || end > CODE_POINT_LIMIT {
                return false;
            }
            next = end + 1;
        }
        count.is_multiple_of(2) || next <= CODE_POINT_LIMIT
    }

    /// Returns a copy of the boundaries, with 0x110000 appended if their number is odd.
    #[inline]
    pub(crate) fn copied(&self) -> Result<Vec<u32>, MemoryError> {
        let count = self.count();
        let mut ends = Vec::with_room(count + count % 2)?;
        for i in 0..count {
            ends.push(self.end_at(i));
        }
        if count % 2 == 1 {
            ends.push(CODE_POINT_LIMIT);
        }
        Ok(ends)
    }
}
