//! Changes of a list of boundaries in place, one range at a time.
//!
//! Boundaries below and above the range stay. Of those in between, at most the two borders of the
//! range remain: its start if membership changes there, and likewise its end.

use crate::icu_zerovec::{CODE_POINT_LIMIT, MemoryError};
use crate::support::prelude::*;

/// Returns true if the boundary at index `place` is below `c`.
#[inline(always)]
fn is_below(ends: &[u32], place: usize, c: u32) -> bool {
    ends[place] < c
}

/// Returns how many of the next three steps from `low` end at a boundary below `c`. All boundaries
/// before `low` must be below `c`.
#[inline(always)]
fn steps_below(ends: &[u32], low: usize, step: usize, c: u32) -> usize {
    let first = is_below(ends, low + step - 1, c);
    let second = is_below(ends, low + 2 * step - 1, c);
    let third = is_below(ends, low + 3 * step - 1, c);
    first as usize + second as usize + third as usize
}

/// Returns a start index and a count of at most three boundaries that are still to be compared with
/// `c`.
///
/// Each round leaves a quarter of the list. It adds up comparisons, so no branch depends on a value
/// read.
#[inline(always)]
fn narrowed(ends: &[u32], c: u32) -> (usize, usize) {
    let mut low = 0;
    let mut size = ends.len();
    while size > 3 {
        let step = size / 4;
        low += step * steps_below(ends, low, step, c);
        size -= 3 * step;
    }
    (low, size)
}

/// Returns how many boundaries are below `c`. There is no search if all are, as when ranges are
/// added in ascending order.
#[inline]
fn count_below(ends: &[u32], c: u32) -> usize {
    let count = ends.len();
    if count > 0 && ends[count - 1] < c {
        return count;
    }
    let (mut low, mut size) = narrowed(ends, c);
    while size > 0 {
        low += is_below(ends, low, c) as usize;
        size -= 1;
    }
    low
}

/// Returns how many boundaries are below `c`, given that at least `from` are. It is fast if there
/// are exactly `from`, as when a range is added after all others.
#[inline(always)]
fn count_below_from(ends: &[u32], from: usize, c: u32) -> usize {
    if from < ends.len() && ends[from] < c {
        return count_below(ends, c);
    }
    from
}

/// Replaces the boundaries at indices `lower..upper` by `start` if `first` is true and `end` if
/// `second` is true.
#[inline(always)]
fn overwrite(
    ends: &mut Vec<u32>,
    lower: usize,
    upper: usize,
    first: bool,
    start: u32,
    second: bool,
    end: u32,
) {
    let mut place = lower;
    if first {
        ends[place] = start;
        place += 1;
    }
    if second {
        ends[place] = end;
        place += 1;
    }
    drop(ends.drain(place..upper));
}

/// Inserts two boundaries at index `place`. The boundaries after them are moved only once.
#[inline]
fn insert_two(ends: &mut Vec<u32>, place: usize, start: u32, end: u32) -> Result<(), MemoryError> {
    let count = ends.len();
    ends.try_extend_from_slice(&[start, end])?;
    if place < count {
        ends.copy_within(place..count, place + 2);
        ends[place] = start;
        ends[place + 1] = end;
    }
    Ok(())
}

/// Sets the membership of all code points in `start..end` to `value`. The list grows only if the
/// range is between two neighbouring boundaries and both of its borders are inserted.
#[inline]
fn fill(ends: &mut Vec<u32>, start: u32, end: u32, value: bool) -> Result<(), MemoryError> {
    let lower = count_below(ends, start);
    let upper = count_below_from(ends, lower, end + 1);
    let first = (lower % 2 == 1) != value;
    let second = (upper % 2 == 1) != value;
    if first && second && lower == upper {
        insert_two(ends, lower, start, end)
    } else {
        overwrite(ends, lower, upper, first, start, second, end);
        Ok(())
    }
}

/// Removes all code points in `start..end`. The range starts or ends at the edge of the code space,
/// so the list does not grow.
#[inline]
fn clear_side(ends: &mut Vec<u32>, start: u32, end: u32) {
    let lower = count_below(ends, start);
    let upper = count_below_from(ends, lower, end + 1);
    overwrite(
        ends,
        lower,
        upper,
        lower % 2 == 1,
        start,
        upper % 2 == 1,
        end,
    );
}

/// Removes all code points outside `start..end`. This does not allocate.
#[inline]
pub(crate) fn retain(ends: &mut Vec<u32>, start: u32, end: u32) {
    let last = end.min(CODE_POINT_LIMIT);
    if start >= last {
        ends.clear();
    } else {
        if start > 0 {
            clear_side(ends, 0, start);
        }
        if last < CODE_POINT_LIMIT {
            clear_side(ends, last, CODE_POINT_LIMIT);
        }
    }
}

/// Adds the code points in `start..end`.
#[inline]
pub(crate) fn add(ends: &mut Vec<u32>, start: u32, end: u32) -> Result<(), MemoryError> {
    let last = end.min(CODE_POINT_LIMIT);
    if start < last {
        fill(ends, start, last, true)
    } else {
        Ok(())
    }
}

/// Removes the code points in `start..end`.
#[inline]
pub(crate) fn remove(ends: &mut Vec<u32>, start: u32, end: u32) -> Result<(), MemoryError> {
    let last = end.min(CODE_POINT_LIMIT);
    if start < last {
        fill(ends, start, last, false)
    } else {
        Ok(())
    }
}

/// Returns true if `x` is not a boundary.
#[inline]
fn is_new(ends: &[u32], x: u32) -> bool {
    ends.binary_search(&x).is_err()
}

/// Removes `x` if it is a boundary, and inserts it otherwise. Inserting needs spare capacity.
#[inline]
fn toggle(ends: &mut Vec<u32>, x: u32) {
    match ends.binary_search(&x) {
        Ok(place) => {
            ends.remove(place);
        }
        Err(place) => {
            let _ = ends.try_insert(place, x);
        }
    }
}

/// Reserves capacity for two more boundaries if `wanted` is true.
#[inline]
fn reserve_two(ends: &mut Vec<u32>, wanted: bool) -> Result<(), MemoryError> {
    if wanted {
        ends.try_room(2)?;
    }
    Ok(())
}

/// Flips the code points in `start..end`. The list grows only if neither border is a boundary;
/// otherwise the one that is a boundary is removed first.
#[inline]
fn toggle_both(ends: &mut Vec<u32>, start: u32, end: u32) -> Result<(), MemoryError> {
    let new_start = is_new(ends, start);
    let new_end = is_new(ends, end);
    reserve_two(ends, new_start && new_end)?;
    if new_start {
        toggle(ends, end);
        toggle(ends, start);
    } else {
        toggle(ends, start);
        toggle(ends, end);
    }
    Ok(())
}

/// Flips the code points in `start..end`: removes those in the set and adds the others.
#[inline]
pub(crate) fn flip(ends: &mut Vec<u32>, start: u32, end: u32) -> Result<(), MemoryError> {
    let last = end.min(CODE_POINT_LIMIT);
    if last <= start {
        return Ok(());
    }
    toggle_both(ends, start, last)
}
