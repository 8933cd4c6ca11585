//! Sets made from ranges, from single code points or from another set.

use crate::icu_collections_c::buffers::write;
use crate::icu_collections_c::error::Error;
use crate::icu_collections_c::sets::bks_set_test;
use crate::icu_zerovec::CODE_POINT_LIMIT;
use crate::support::AllocError;
use crate::support::prelude::*;

/// The code points from `first` to `last`, both included. There are none if `first` is above
/// `last`.
#[repr(C)]
#[derive(Clone, Copy)]
pub struct Interval {
    pub first: u32,
    pub last: u32,
}

/// Adds the code points of a range to the set with these boundaries. The last range of the set
/// starts at `range.first` or before.
fn join(ends: &mut Vec<u32>, range: Interval) -> Result<(), AllocError> {
    let end = range.last.min(CODE_POINT_LIMIT - 1) + 1;
    let count = ends.len();
    if range.first >= end {
        Ok(())
    } else if count > 0 && range.first <= ends[count - 1] {
        ends[count - 1] = ends[count - 1].max(end);
        Ok(())
    } else {
        ends.try_push(range.first)?;
        ends.try_push(end)?;
        Ok(())
    }
}

/// Returns the boundaries of the set of all code points in the ranges, whose first numbers ascend.
#[inline]
fn joined(ranges: &[Interval]) -> Result<Vec<u32>, AllocError> {
    let mut ends = Vec::new();
    for range in ranges {
        join(&mut ends, *range)?;
    }
    Ok(ends)
}

/// Returns the boundaries of the set of all code points in the ranges.
#[inline]
fn ends_of_ranges(ranges: &[Interval]) -> Result<Vec<u32>, AllocError> {
    if ranges.is_sorted_by(|before, after| before.first <= after.first) {
        return joined(ranges);
    }
    let mut sorted = Vec::from_slice(ranges)?;
    sorted.sort_unstable_by_key(|range| range.first);
    joined(&sorted)
}

/// Returns the boundaries of the set of these code points.
#[inline]
fn ends_of_points(points: &[u32]) -> Result<Vec<u32>, AllocError> {
    let mut sorted = Vec::from_slice(points)?;
    sorted.sort_unstable();
    let mut ends = Vec::new();
    for point in &sorted {
        let range = Interval {
            first: *point,
            last: *point,
        };
        join(&mut ends, range)?;
    }
    Ok(ends)
}

/// Writes the boundaries of the set of all code points in the ranges into a buffer, as many as fit,
/// and returns how many there are: never more than two for each range.
///
/// The ranges may be in any order, and may overlap. A range is empty if its first number is above
/// its last one. Numbers above 0x10FFFF are ignored. Takes O(n log n) time.
///
/// ICU: `uset_addRange` for each range.
///
/// # Errors
/// Returns the number of [`Error::NoMemory`] if an allocation fails. The buffer is then
/// unchanged.
pub fn bks_set_from_ranges(ranges: &[Interval], ends: &mut [u32]) -> i64 {
    match ends_of_ranges(ranges) {
        Ok(made) => {
            write(&made, ends);
            made.len() as i64
        }
        Err(_) => Error::NoMemory.number(),
    }
}

/// Writes the boundaries of the set of these code points into a buffer, as many as fit, and returns
/// how many there are: never more than two for each point.
///
/// The points may be in any order, and may repeat. Numbers above 0x10FFFF are ignored. Takes
/// O(n log n) time.
///
/// ICU: `uset_add` for each code point.
///
/// # Errors
/// Returns the number of [`Error::NoMemory`] if an allocation fails. The buffer is then
/// unchanged.
pub fn bks_set_from_points(points: &[u32], ends: &mut [u32]) -> i64 {
    match ends_of_points(points) {
        Ok(made) => {
            write(&made, ends);
            made.len() as i64
        }
        Err(_) => Error::NoMemory.number(),
    }
}

/// Adds 0 at the start of a list of boundaries, or removes it if it is there. Returns what to add,
/// and the rest.
#[inline]
fn front_toggled(ends: &[u32]) -> (&'static [u32], &[u32]) {
    if !ends.is_empty() && ends[0] == 0 {
        (&[], &ends[1..])
    } else {
        (&[0], ends)
    }
}

/// Adds 0x110000 at the end of a list of boundaries, or removes it if it is there. Returns the
/// rest, and what to add.
#[inline]
fn back_toggled(ends: &[u32]) -> (&[u32], &'static [u32]) {
    let count = ends.len();
    if count > 0 && ends[count - 1] == CODE_POINT_LIMIT {
        (&ends[..count - 1], &[])
    } else {
        (ends, &[CODE_POINT_LIMIT])
    }
}

/// Writes the items to a buffer from index `from` on, as many as fit. The rest of the buffer is
/// unchanged.
#[inline]
fn write_from(items: &[u32], from: usize, buffer: &mut [u32]) {
    if from < buffer.len() {
        write(items, &mut buffer[from..]);
    }
}

/// Writes the boundaries of the complement of a set into a buffer, as many as fit, and returns how
/// many there are: never more than two more than the set has. The complement has all code points
/// that are not in the set.
///
/// ICU: `uset_complement`.
///
/// # Errors
/// Returns the number of [`Error::InvalidSet`] if the list is not the boundaries of a set
/// ([`bks_set_test`]). The buffer is then unchanged.
pub fn bks_set_complement(ends: &[u32], complement: &mut [u32]) -> i64 {
    if !bks_set_test(ends) {
        return Error::InvalidSet.number();
    }
    let (rest, back) = back_toggled(ends);
    let (front, middle) = front_toggled(rest);
    write(front, complement);
    write_from(middle, front.len(), complement);
    write_from(back, front.len() + middle.len(), complement);
    (front.len() + middle.len() + back.len()) as i64
}
