//! Opening a trie, from its binary form or from its parts, and looking up one value.

use crate::tries::{Parts, trie_of};
use icu_trie_binary::binary::from_binary;

/// Returns the value of `A` plus the length of the trie at the start of the bytes.
#[inline(never)]
fn opened(bytes: &[u8]) -> Option<u64> {
    let (trie, len) = from_binary::<u8>(bytes).ok()?;
    Some((trie.get32(0x41) as u64).wrapping_add(len as u64))
}

/// Returns the sum of `opened` over all turns. Some turns leave out the last byte, depending on the
/// sum so far, so that the compiler cannot remove a turn.
fn opened_often(bytes: &[u8], turns: usize) -> Option<u64> {
    let mut sum = 0u64;
    for _ in 0..turns {
        let len = bytes.len().saturating_sub((sum & 1) as usize);
        sum = sum.wrapping_add(opened(bytes.get(..len)?)?);
    }
    Some(sum)
}

/// Returns the value of `A` in the trie with these parts.
#[inline(never)]
fn made(parts: &Parts<'_>) -> Option<u64> {
    Some(trie_of::<u8>(parts)?.get32(0x41) as u64)
}

/// Returns the sum of `made` over all turns. The null value depends on the sum so far, so that the
/// compiler cannot remove a turn.
fn made_often(parts: &Parts<'_>, turns: usize) -> Option<u64> {
    let mut parts = *parts;
    let mut sum = 0u64;
    for _ in 0..turns {
        parts.null_value = (sum & 1) as u32;
        sum = sum.wrapping_add(made(&parts)?);
    }
    Some(sum)
}

/// Opens the trie of 8-bit values at the start of the bytes, `turns` times. One more byte follows
/// the trie.
#[unsafe(no_mangle)]
pub extern "C" fn ours_open_8(bytes: &[u8], turns: usize) -> u64 {
    opened_often(bytes, turns).unwrap_or(u64::MAX)
}

/// Makes a trie of 8-bit values from these parts, `turns` times.
#[unsafe(no_mangle)]
pub extern "C" fn ours_try_new_8(parts: &Parts<'_>, turns: usize) -> u64 {
    made_often(parts, turns).unwrap_or(u64::MAX)
}
