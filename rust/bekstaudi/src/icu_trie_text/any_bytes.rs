//! The value of the first part of bytes that may be ill-formed UTF-8.

use crate::icu_trie_text::part_values::{PartValues, Reading};
use crate::icu_utf::characters::first_character;
use crate::icu_utf::first_utf8::{ill_formed_size, is_high_of_four, is_high_of_three, trail_of};
use crate::support::prelude::*;

/// Returns the value of the first part of the bytes, which are not empty, and its size in bytes. It
/// is a call, for the parts that `inlined_first_value` leaves.
#[inline(never)]
pub(crate) fn outlined_first_value<T, V: PartValues<T>>(trie: &V, bytes: &[u8]) -> (T, usize) {
    match first_character(bytes) {
        Some((c, size)) => (trie.value(u32::from(c)), size),
        None => (trie.error(), ill_formed_size(bytes)),
    }
}

/// Returns the value of the two-byte character at the start of the bytes. `None` if there is none.
#[inline(always)]
fn two_byte_value<T, V: PartValues<T>>(trie: &V, bytes: &[u8]) -> Option<T> {
    let second = trail_of(bytes[1]);
    if second >= 0x40 {
        return None;
    }
    Some(trie.value_in_fast_block(u32::from(bytes[0]) - 0xC0, second))
}

/// Returns the value of the three-byte character at the start of the bytes, in two reads.
/// `None` if there is none, or if its value takes more reads.
#[inline(always)]
fn three_byte_value<T, V: PartValues<T>>(trie: &V, bytes: &[u8]) -> Option<T> {
    let second = trail_of(bytes[1]);
    let third = trail_of(bytes[2]);
    if second | third >= 0x40 {
        return None;
    }
    let block = (u32::from(bytes[0]) - 0xE0) * 64 + second;
    if !is_high_of_three(block) {
        return None;
    }
    trie.value_in_block(block, third)
}

/// Returns the value of the four-byte character at the start of the bytes. `None` if there is none.
#[inline(always)]
fn four_byte_value<T, V: PartValues<T>>(trie: &V, bytes: &[u8]) -> Option<T> {
    let second = trail_of(bytes[1]);
    let third = trail_of(bytes[2]);
    let fourth = trail_of(bytes[3]);
    if second | third | fourth >= 0x40 {
        return None;
    }
    let high = (u32::from(bytes[0]) - 0xF0) * 64 + second;
    if !is_high_of_four(high) {
        return None;
    }
    Some(trie.value(high * 4096 + third * 64 + fourth))
}

/// Returns the value of the character at the start of the bytes, and its size in bytes. `None` if
/// there is none, or if its value takes a call. There are at least four bytes.
#[inline(always)]
fn inlined_first_value<T, V: PartValues<T>>(trie: &V, bytes: &[u8]) -> Option<(T, usize)> {
    let lead = bytes[0];
    if lead < 0xE0 {
        if lead < 0x80 {
            return Some((trie.ascii(lead), 1));
        }
        if lead < 0xC2 {
            return None;
        }
        Some((two_byte_value(trie, bytes)?, 2))
    } else if lead < 0xF0 {
        Some((three_byte_value(trie, bytes)?, 3))
    } else {
        Some((four_byte_value(trie, bytes)?, 4))
    }
}

/// Bytes that may be ill-formed.
pub(crate) struct AnyBytes;

impl<T, V: PartValues<T>> Reading<T, V> for AnyBytes {
    #[inline(always)]
    fn first_value(trie: &V, bytes: &[u8]) -> (T, usize) {
        match inlined_first_value(trie, bytes) {
            Some(found) => found,
            None => outlined_first_value(trie, bytes),
        }
    }
}
