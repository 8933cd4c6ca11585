//! The ranges of tries, and the sets of code points that have a value.

use crate::mixing::mixed;
use crate::tries::{Parts, trie_of};
use icu_invlist::codepointinvlist::CodePointInversionList;
use icu_trie::cptrie::CodePointTrie;
use icu_trie::value::TrieValue;
use std::alloc::Global;

/// Returns the checksum `sum` after all ranges of a trie, by `iter_ranges`.
#[inline(never)]
fn mixed_ranges<T: TrieValue>(trie: &CodePointTrie<'_, T>, sum: u64) -> u64 {
    let mut sum = sum;
    for range in trie.iter_ranges() {
        sum = mixed(sum, *range.range.end() ^ range.value.to_u32());
    }
    sum
}

fn ranges_mixed_often<T: TrieValue>(trie: &CodePointTrie<'_, T>, turns: usize) -> u64 {
    let mut sum = 0u64;
    for _ in 0..turns {
        sum = mixed_ranges(trie, sum);
    }
    sum
}

fn ranges_of<T: TrieValue>(parts: &Parts<'_>, turns: usize) -> u64 {
    match trie_of::<T>(parts) {
        Some(trie) => ranges_mixed_often(&trie, turns),
        None => u64::MAX,
    }
}

/// Returns the checksum `sum` after all ranges of a trie, by one call of `get_range` for each.
#[inline(never)]
fn mixed_by_calls(trie: &CodePointTrie<'_, u8>, sum: u64) -> u64 {
    let mut sum = sum;
    let mut start = 0u32;
    for _ in 0..0x11_0000u32 {
        let Some(range) = trie.get_range(start) else {
            return sum;
        };
        let last = *range.range.end();
        sum = mixed(sum, last ^ u32::from(range.value));
        start = last.wrapping_add(1);
    }
    sum
}

fn mixed_by_calls_often(trie: &CodePointTrie<'_, u8>, turns: usize) -> u64 {
    let mut sum = 0u64;
    for _ in 0..turns {
        sum = mixed_by_calls(trie, sum);
    }
    sum
}

/// Lists all ranges of a trie of 8-bit values by `get_range`, `turns` times.
#[unsafe(no_mangle)]
pub extern "C" fn ours_range_8(parts: &Parts<'_>, turns: usize) -> u64 {
    match trie_of::<u8>(parts) {
        Some(trie) => mixed_by_calls_often(&trie, turns),
        None => u64::MAX,
    }
}

/// Returns a checksum of all ranges of a set.
pub fn mixed_set(set: &CodePointInversionList<'_>) -> u64 {
    let mut sum = 0u64;
    for range in set.iter_ranges() {
        sum = mixed(mixed(sum, *range.start()), *range.end());
    }
    sum
}

/// Lists all ranges of a trie of 8-bit values, `turns` times.
#[unsafe(no_mangle)]
pub extern "C" fn ours_ranges_8(parts: &Parts<'_>, turns: usize) -> u64 {
    ranges_of::<u8>(parts, turns)
}

/// Lists all ranges of a trie of 16-bit values, `turns` times.
#[unsafe(no_mangle)]
pub extern "C" fn ours_ranges_16(parts: &Parts<'_>, turns: usize) -> u64 {
    ranges_of::<u16>(parts, turns)
}

/// Lists all ranges of a trie of 32-bit values, `turns` times.
#[unsafe(no_mangle)]
pub extern "C" fn ours_ranges_32(parts: &Parts<'_>, turns: usize) -> u64 {
    ranges_of::<u32>(parts, turns)
}

/// Makes the set of the code points that have the value in a trie, and returns a checksum of its
/// ranges.
fn mixed_set_for(alloc: Global, trie: &CodePointTrie<'_, u8>, value: u8) -> Option<u64> {
    match trie.get_set_for_value(alloc, value) {
        Ok(set) => Some(mixed_set(&set)),
        Err(_) => None,
    }
}

fn sets_made_often(
    alloc: Global,
    trie: &CodePointTrie<'_, u8>,
    value: u8,
    turns: usize,
) -> Option<u64> {
    let mut sum = 0u64;
    for _ in 0..turns {
        sum = sum.wrapping_add(mixed_set_for(alloc, trie, value)?);
    }
    Some(sum)
}

/// Makes the set of the code points that have the value in a trie of 8-bit values, `turns` times.
#[unsafe(no_mangle)]
pub extern "C" fn ours_setfor_8(alloc: Global, parts: &Parts<'_>, value: u8, turns: usize) -> u64 {
    match trie_of::<u8>(parts) {
        Some(trie) => sets_made_often(alloc, &trie, value, turns).unwrap_or(u64::MAX),
        None => u64::MAX,
    }
}
