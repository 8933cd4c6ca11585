//! Sets of code points: many look-ups, and building.

use crate::ranges::mixed_set;
use icu_invlist::codepointinvlist::{CodePointInversionList, CodePointInversionListBuilder};
use icu_zerovec::ZeroVec;
use std::alloc::Global;

/// Returns the set with these boundaries, which it borrows, or `None` if they are not an inversion
/// list.
pub(crate) fn set_of<'a>(alloc: Global, ends: &'a [u8]) -> Option<CodePointInversionList<'a>> {
    let ends = ZeroVec::parse_bytes(ends).ok()?;
    CodePointInversionList::try_from_inversion_list(alloc, ends).ok()
}

/// Returns the number of code points in the set. It is not inlined, so that its loop can be found
/// in the machine code.
#[inline(never)]
fn held_points(set: &CodePointInversionList<'_>, points: &[u32]) -> u64 {
    let mut sum = 0u64;
    for c in points {
        sum = sum.wrapping_add(set.contains32(*c) as u64);
    }
    sum
}

/// Adds the number of characters of a text that are in the set to `sum`.
#[inline(never)]
fn add_held(set: &CodePointInversionList<'_>, text: &str, sum: u64) -> u64 {
    let mut sum = sum;
    for c in text.chars() {
        sum = sum.wrapping_add(set.contains(c) as u64);
    }
    sum
}

#[inline(never)]
fn added_positions(set: &CodePointInversionList<'_>, points: &[u32]) -> u64 {
    let mut sum = 0u64;
    for c in points {
        sum = sum.wrapping_add(set.position32(*c).unwrap_or(7) as u64);
    }
    sum
}

/// Adds the bounds of all ranges to `sum`. Each turn starts from the sum of the last one, so that
/// the compiler cannot remove a turn.
#[inline(never)]
fn added_ranges(set: &CodePointInversionList<'_>, sum: u64) -> u64 {
    let mut sum = sum;
    for range in set.iter_ranges() {
        sum = sum
            .wrapping_add((*range.start() ^ 7) as u64)
            .wrapping_add(*range.end() as u64);
    }
    sum
}

/// Adds the numbers of all characters in the set to `sum`.
#[inline(never)]
fn added_chars(set: &CodePointInversionList<'_>, sum: u64) -> u64 {
    let mut sum = sum;
    for c in set.iter_chars() {
        sum = sum.wrapping_add((u32::from(c) ^ 7) as u64);
    }
    sum
}

/// Counts the code points in the set.
#[unsafe(no_mangle)]
pub extern "C" fn ours_contains(alloc: Global, ends: &[u8], points: &[u32]) -> u64 {
    match set_of(alloc, ends) {
        Some(set) => held_points(&set, points),
        None => u64::MAX,
    }
}

fn text_held_often(set: &CodePointInversionList<'_>, text: &str, turns: usize) -> u64 {
    let mut sum = 0u64;
    for _ in 0..turns {
        sum = add_held(set, text, sum);
    }
    sum
}

/// Counts the characters of a text that are in the set, `turns` times.
#[unsafe(no_mangle)]
pub extern "C" fn ours_contains_text(alloc: Global, ends: &[u8], text: &[u8], turns: usize) -> u64 {
    let Ok(text) = std::str::from_utf8(text) else {
        return u64::MAX;
    };
    match set_of(alloc, ends) {
        Some(set) => text_held_often(&set, text, turns),
        None => u64::MAX,
    }
}

/// Returns the sum of the indices of the code points in the set, with 7 for each that is not in it.
#[unsafe(no_mangle)]
pub extern "C" fn ours_position(alloc: Global, ends: &[u8], points: &[u32]) -> u64 {
    match set_of(alloc, ends) {
        Some(set) => added_positions(&set, points),
        None => u64::MAX,
    }
}

/// Iterates over all ranges of a set, `turns` times.
#[unsafe(no_mangle)]
pub extern "C" fn ours_set_iter(alloc: Global, ends: &[u8], turns: usize) -> u64 {
    let Some(set) = set_of(alloc, ends) else {
        return u64::MAX;
    };
    let mut sum = 0u64;
    for _ in 0..turns {
        sum = added_ranges(&set, sum);
    }
    sum
}

/// Iterates over all characters of a set, `turns` times.
#[unsafe(no_mangle)]
pub extern "C" fn ours_set_iter_chars(alloc: Global, ends: &[u8], turns: usize) -> u64 {
    let Some(set) = set_of(alloc, ends) else {
        return u64::MAX;
    };
    let mut sum = 0u64;
    for _ in 0..turns {
        sum = added_chars(&set, sum);
    }
    sum
}

/// Tests whether one of two equal sets contains `other`, `turns` times. Which of the two is used
/// depends on the results so far, so that the compiler cannot remove a turn.
fn contained_often<'a, 'b>(
    set: &'b CodePointInversionList<'a>,
    twin: &'b CodePointInversionList<'a>,
    other: &CodePointInversionList<'_>,
    turns: usize,
) -> u64 {
    let mut sum = 0u64;
    for _ in 0..turns {
        let asked = if sum % 2 == 0 { set } else { twin };
        sum = sum.wrapping_add(asked.contains_set(other) as u64);
    }
    sum
}

/// Tests whether the first set contains the second, `turns` times.
#[unsafe(no_mangle)]
pub extern "C" fn ours_contains_set(alloc: Global, a: &[u8], b: &[u8], turns: usize) -> u64 {
    let (Some(twin), Some(a), Some(b)) = (set_of(alloc, a), set_of(alloc, a), set_of(alloc, b))
    else {
        return u64::MAX;
    };
    contained_often(&a, &twin, &b, turns)
}

/// Changes the builder's set by the other: union (0), difference (1), intersection (2) or symmetric
/// difference (any other number).
fn blend(
    builder: &mut CodePointInversionListBuilder,
    set: &CodePointInversionList<'_>,
    how: u32,
) -> Option<()> {
    match how {
        0 => builder.add_set(set).ok(),
        1 => builder.remove_set(set).ok(),
        2 => builder.retain_set(set).ok(),
        _ => builder.complement_set(set).ok(),
    }
}

/// Returns the result of that operation on two sets.
fn blended(
    alloc: Global,
    a: &CodePointInversionList<'_>,
    b: &CodePointInversionList<'_>,
    how: u32,
) -> Option<CodePointInversionList<'static>> {
    let mut builder = CodePointInversionListBuilder::new(alloc);
    builder.add_set(a).ok()?;
    blend(&mut builder, b, how)?;
    builder.build().ok()
}

/// Adds the number of ranges of a result to `sum`. In the first turn, starts with a checksum of its
/// ranges.
fn counted(set: &CodePointInversionList<'_>, turn: usize, sum: u64) -> u64 {
    let sum = if turn == 0 { mixed_set(set) } else { sum };
    sum.wrapping_add(set.get_range_count() as u64)
}

fn blended_often(
    alloc: Global,
    a: &CodePointInversionList<'_>,
    b: &CodePointInversionList<'_>,
    how: u32,
    turns: usize,
) -> u64 {
    let mut sum = 0u64;
    for turn in 0..turns {
        match blended(alloc, a, b, how) {
            Some(set) => sum = counted(&set, turn, sum),
            None => return u64::MAX,
        }
    }
    sum
}

/// Computes an operation on two sets, `turns` times. Returns the number of ranges of all results
/// plus a checksum of the first.
#[unsafe(no_mangle)]
pub extern "C" fn ours_blend(alloc: Global, a: &[u8], b: &[u8], how: u32, turns: usize) -> u64 {
    let (Some(a), Some(b)) = (set_of(alloc, a), set_of(alloc, b)) else {
        return u64::MAX;
    };
    blended_often(alloc, &a, &b, how, turns)
}

fn add_ranges(
    builder: &mut CodePointInversionListBuilder,
    starts: &[u32],
    ends: &[u32],
) -> Option<()> {
    for (start, end) in starts.iter().zip(ends.iter()) {
        builder.add_range32(*start..*end).ok()?;
    }
    Some(())
}

fn of_ranges(
    alloc: Global,
    starts: &[u32],
    ends: &[u32],
) -> Option<CodePointInversionList<'static>> {
    let mut builder = CodePointInversionListBuilder::new(alloc);
    add_ranges(&mut builder, starts, ends)?;
    builder.build().ok()
}

/// Builds the set of these ranges, range by range, `turns` times. Returns the number of ranges of
/// all results plus a checksum of the first.
#[unsafe(no_mangle)]
pub extern "C" fn ours_set_ranges(
    alloc: Global,
    starts: &[u32],
    ends: &[u32],
    turns: usize,
) -> u64 {
    let mut sum = 0u64;
    for turn in 0..turns {
        match of_ranges(alloc, starts, ends) {
            Some(set) => sum = counted(&set, turn, sum),
            None => return u64::MAX,
        }
    }
    sum
}
