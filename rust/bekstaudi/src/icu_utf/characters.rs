//! The first and the last character of bytes that may be ill-formed UTF-8.

use crate::icu_utf::first_utf8::{of_four, of_three, of_two};
use crate::support::prelude::*;

/// Returns the character at the start of the bytes, and its size in bytes. `None` if they are empty
/// or do not start with a character.
#[inline(always)]
#[must_use]
pub fn first_character(bytes: &[u8]) -> Option<(char, usize)> {
    if bytes.is_empty() {
        return None;
    }
    let lead = bytes[0];
    if lead < 0xE0 {
        if lead < 0x80 {
            return Some((char::from(lead), 1));
        }
        if lead < 0xC2 {
            return None;
        }
        Some((of_two(bytes)?, 2))
    } else if lead < 0xF0 {
        Some((of_three(bytes)?, 3))
    } else {
        Some((of_four(bytes)?, 4))
    }
}

/// Returns the index of the last byte that is not a trail byte, but goes back by at most three
/// bytes.
#[inline(always)]
fn last_lead(bytes: &[u8]) -> usize {
    let last = bytes.len() - 1;
    let mut start = last;
    while start > 0 && last - start < 3 && bytes[start] >= 0x80 && bytes[start] < 0xC0 {
        start -= 1;
    }
    start
}

/// Returns the character at the end of the bytes, and its size in bytes. `None` if they are empty
/// or do not end with a character.
#[inline(always)]
#[must_use]
pub fn last_character(bytes: &[u8]) -> Option<(char, usize)> {
    if bytes.is_empty() {
        return None;
    }
    let end = &bytes[last_lead(bytes)..];
    let (c, size) = first_character(end)?;
    if size != end.len() {
        return None;
    }
    Some((c, size))
}
