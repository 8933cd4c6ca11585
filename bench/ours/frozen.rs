//! Frozen sets of code points: many look-ups, spans of texts, and freezing.

use crate::sets::set_of;
use icu_frozen_sets::frozen::FrozenCodePointSet;
use icu_invlist::codepointinvlist::CodePointInversionList;
use std::alloc::Global;

/// Adds the number of code points in the set to `sum`. It is not inlined, so that its loop can be
/// found in the machine code.
#[inline(never)]
fn held_points_frozen(set: &FrozenCodePointSet, points: &[u32], sum: u64) -> u64 {
    let mut sum = sum;
    for c in points {
        sum = sum.wrapping_add(set.contains32(*c) as u64);
    }
    sum
}

/// Adds the number of characters of the text that are in the set to `sum`.
#[inline(never)]
fn add_held_frozen(set: &FrozenCodePointSet, text: &str, sum: u64) -> u64 {
    let mut sum = sum;
    for c in text.chars() {
        sum = sum.wrapping_add(set.contains(c) as u64);
    }
    sum
}

/// Adds the number of ranges that the set contains to `sum`. Each has a start and a last code point.
#[inline(never)]
fn add_held_ranges(set: &FrozenCodePointSet, starts: &[u32], lasts: &[u32], sum: u64) -> u64 {
    let mut sum = sum;
    for (start, last) in starts.iter().zip(lasts.iter()) {
        if let (Some(start), Some(last)) = (char::from_u32(*start), char::from_u32(*last)) {
            sum = sum.wrapping_add(set.contains_range(start..=last) as u64);
        }
    }
    sum
}

/// Freezes the set with these boundaries.
fn frozen_of(alloc: Global, ends: &[u8]) -> Option<FrozenCodePointSet> {
    let set = set_of(alloc, ends)?;
    FrozenCodePointSet::freeze(alloc, &set).ok()
}

/// Counts the code points in the frozen set, `turns` times.
#[unsafe(no_mangle)]
pub extern "C" fn ours_frozen_contains(
    alloc: Global,
    ends: &[u8],
    points: &[u32],
    turns: usize,
) -> u64 {
    let Some(set) = frozen_of(alloc, ends) else {
        return u64::MAX;
    };
    let mut sum = 0u64;
    for _ in 0..turns {
        sum = held_points_frozen(&set, points, sum);
    }
    sum
}

/// Counts the ranges that the frozen set contains, `turns` times.
#[unsafe(no_mangle)]
pub extern "C" fn ours_frozen_contains_range(
    alloc: Global,
    ends: &[u8],
    starts: &[u32],
    lasts: &[u32],
    turns: usize,
) -> u64 {
    let Some(set) = frozen_of(alloc, ends) else {
        return u64::MAX;
    };
    let mut sum = 0u64;
    for _ in 0..turns {
        sum = add_held_ranges(&set, starts, lasts, sum);
    }
    sum
}

fn text_held_often(set: &FrozenCodePointSet, text: &str, turns: usize) -> u64 {
    let mut sum = 0u64;
    for _ in 0..turns {
        sum = add_held_frozen(set, text, sum);
    }
    sum
}

/// Counts the characters of a text that are in the frozen set, `turns` times.
#[unsafe(no_mangle)]
pub extern "C" fn ours_frozen_text(alloc: Global, ends: &[u8], text: &[u8], turns: usize) -> u64 {
    let Ok(text) = std::str::from_utf8(text) else {
        return u64::MAX;
    };
    match frozen_of(alloc, ends) {
        Some(set) => text_held_often(&set, text, turns),
        None => u64::MAX,
    }
}

fn spans_added(set: &CodePointInversionList<'_>, text: &str, turns: usize) -> u64 {
    let mut sum = 0u64;
    for _ in 0..turns {
        sum = sum.wrapping_add(set.span(text, sum < u64::MAX) as u64);
    }
    sum
}

/// Computes the span of a text in the set, `turns` times.
#[unsafe(no_mangle)]
pub extern "C" fn ours_span(alloc: Global, ends: &[u8], text: &[u8], turns: usize) -> u64 {
    let Ok(text) = std::str::from_utf8(text) else {
        return u64::MAX;
    };
    match set_of(alloc, ends) {
        Some(set) => spans_added(&set, text, turns),
        None => u64::MAX,
    }
}

fn frozen_spans_added(set: &FrozenCodePointSet, text: &str, turns: usize) -> u64 {
    let mut sum = 0u64;
    for _ in 0..turns {
        sum = sum.wrapping_add(set.span(text, sum < u64::MAX) as u64);
    }
    sum
}

/// Computes the span of a text in the frozen set, `turns` times.
#[unsafe(no_mangle)]
pub extern "C" fn ours_frozen_span(alloc: Global, ends: &[u8], text: &[u8], turns: usize) -> u64 {
    let Ok(text) = std::str::from_utf8(text) else {
        return u64::MAX;
    };
    match frozen_of(alloc, ends) {
        Some(set) => frozen_spans_added(&set, text, turns),
        None => u64::MAX,
    }
}

/// Freezes the set, and returns whether it contains U+4E00, or `None` if an allocation fails.
fn holds_when_frozen(alloc: Global, set: &CodePointInversionList<'_>) -> Option<bool> {
    match FrozenCodePointSet::freeze(alloc, set) {
        Ok(frozen) => Some(frozen.contains32(0x4E00)),
        Err(_) => None,
    }
}

fn frozen_often(alloc: Global, set: &CodePointInversionList<'_>, turns: usize) -> Option<u64> {
    let mut sum = 0u64;
    for _ in 0..turns {
        sum = sum.wrapping_add(holds_when_frozen(alloc, set)? as u64);
    }
    Some(sum)
}

/// Freezes the set, `turns` times.
#[unsafe(no_mangle)]
pub extern "C" fn ours_freeze(alloc: Global, ends: &[u8], turns: usize) -> u64 {
    match set_of(alloc, ends) {
        Some(set) => frozen_often(alloc, &set, turns).unwrap_or(u64::MAX),
        None => u64::MAX,
    }
}
