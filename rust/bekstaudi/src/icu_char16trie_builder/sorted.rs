//! Entries that are already in unit order. They are checked, and no key is copied.

use crate::icu_char16trie_builder::builder::{LONGEST_KEY, total_with};
use crate::icu_char16trie_builder::entry::Entry;
use crate::icu_char16trie_builder::error::SortedError;
use crate::support::AllocError;
use crate::support::prelude::*;

/// Returns true if a key is before another in unit order.
#[inline]
fn is_before(a: &[u16], b: &[u16]) -> bool {
    a < b
}

/// Returns true if the entry at index `i` is valid after those before it, which are in order.
#[inline]
fn follows(entries: &[(&[u16], i32)], i: usize) -> bool {
    let key = entries[i].0;
    if key.len() > LONGEST_KEY {
        return false;
    }
    if i == 0 {
        return true;
    }
    is_before(entries[i - 1].0, key)
}

/// Returns the index of the first entry that is not valid, if there is one.
#[inline]
fn first_refused(entries: &[(&[u16], i32)]) -> Option<usize> {
    for i in 0..entries.len() {
        if !follows(entries, i) {
            return Some(i);
        }
    }
    None
}

/// Returns why the entry at index `i`, the first that is not valid, is rejected.
#[inline]
fn refusal_at(entries: &[(&[u16], i32)], i: usize) -> SortedError {
    if entries[i].0.len() > LONGEST_KEY {
        return SortedError::KeyTooLong(i);
    }
    SortedError::NotAscending(i)
}

/// Returns true if no trie of the entries can need too many units.
#[inline]
fn fit(entries: &[(&[u16], i32)]) -> bool {
    let mut total: u64 = 0;
    for i in 0..entries.len() {
        let Some(more) = total_with(total, entries[i].0.len()) else {
            return false;
        };
        total = more;
    }
    true
}

/// Returns why no trie can be built from the entries, apart from a failed allocation.
#[inline]
pub(crate) fn refusal(entries: &[(&[u16], i32)]) -> Option<SortedError> {
    if let Some(i) = first_refused(entries) {
        return Some(refusal_at(entries, i));
    }
    if !fit(entries) {
        return Some(SortedError::TooLarge);
    }
    None
}

/// Returns the entries, in their order.
#[inline]
pub(crate) fn entries_of_pairs<'a>(
    pairs: &[(&'a [u16], i32)],
) -> Result<Vec<Entry<'a>>, AllocError> {
    let mut list = Vec::with_room(pairs.len())?;
    for (key, value) in pairs {
        list.try_push(Entry { key, value: *value })?;
    }
    Ok(list)
}
