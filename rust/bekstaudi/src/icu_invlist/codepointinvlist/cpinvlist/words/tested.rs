//! The words by reads with four tests of an index in place of six.

use crate::support::prelude::*;
/// Returns the word that starts at index `at`, of the first `starts` indices. It takes one test: each
/// of these indices has three more bytes after it.
#[inline(always)]
fn word_from(bytes: &[u8], starts: usize, at: usize) -> Option<u32> {
    if at >= starts {
        return None;
    }
    match bytes[at..].first_chunk::<4>() {
        Some(four) => Some(u32::from_le_bytes(*four)),
        None => unreachable!(),
    }
}

/// Returns the words of the last boundary of each of three steps from boundary `low` on, of `step`
/// boundaries each. Such a word is a boundary's three bytes after the byte before them. That byte is
/// the lowest, so comparisons do not depend on it.
#[inline(always)]
pub(crate) fn last_words(bytes: &[u8], low: usize, step: usize) -> [u32; 3] {
    let starts = bytes.len() - 3;
    let first = 3 * (low + step) - 4;
    let Some(one) = word_from(bytes, starts, first) else {
        unreachable!();
    };
    let Some(two) = word_from(bytes, starts, first + 3 * step) else {
        unreachable!();
    };
    let Some(three) = word_from(bytes, starts, first + 6 * step) else {
        unreachable!();
    };
    [one, two, three]
}
