//! What comes after a cursor's position in a unit trie: the next units, and the one value of all
//! keys.

use crate::icu_char16trie::char16trie::Char16TrieCursor;
use crate::icu_collections_c::buffers::write;
use crate::icu_collections_c::error::Error;
use crate::icu_collections_c::unit_tries::{Cursor, place_of};
use crate::icu_collections_c::units::trie_in;
use crate::support::prelude::*;

/// Writes the units that can come next in some key to the start of a buffer, as many as fit.
/// Returns how many there are, at most 65,536. If the units are a trie, they ascend, each once. If
/// not, they are those of the entries of a branch, as far as the entries are there.
///
/// ICU: `UCharsTrie::getNextUChars`.
///
/// # Errors
/// Returns the number of [`Error::NoMemory`] if an allocation fails. The buffer is then
/// unchanged.
pub fn bks_units_next(units: &[u8], cursor: &Cursor, next: &mut [u16]) -> i64 {
    let trie = trie_in(units);
    let here = Char16TrieCursor::resume(trie.data.as_slice(), place_of(cursor));
    match here.try_next_units() {
        Ok(list) => {
            write(&list, next);
            list.len() as i64
        }
        Err(_) => Error::NoMemory.number(),
    }
}

/// Returns 1 if all keys that start with the units so far have one value, and stores it in `value`.
/// Returns 0 if their values differ or there is no such key; `value` is then unchanged. If the
/// units so far are a key, it counts too.
///
/// Visits each node ahead once, however many keys there are. If the units are not a trie from this
/// position on, the result is 0.
///
/// ICU: `UCharsTrie::hasUniqueValue`.
///
/// # Errors
/// Returns the number of [`Error::NoMemory`] if an allocation fails. `value` is then unchanged.
pub fn bks_units_unique(units: &[u8], cursor: &Cursor, value: &mut i32) -> i64 {
    let trie = trie_in(units);
    let here = Char16TrieCursor::resume(trie.data.as_slice(), place_of(cursor));
    match here.try_unique_value() {
        Ok(Some(found)) => {
            *value = found;
            1
        }
        Ok(None) => 0,
        Err(_) => Error::NoMemory.number(),
    }
}
