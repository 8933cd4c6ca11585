//! Maps from lists of 16-bit units to numbers, stored in one list of units: ICU's `UCharsTrie`.
//!
//!
//! The units may be untrusted: every function returns on all units, and if a unit that is needed is
//! missing, nothing matches. Untrusted units can have very many entries, so listing them can take
//! long. [`Char16Trie::count_entries`](char16trie::Char16Trie::count_entries) returns the number of
//! entries in advance.
//!
//! All public items but the constants are in `char16trie`, as in the Rust crate:
//!
//! - `char16trie`: the public items, under the Rust crate's names
//! - `trie`: [`Char16Trie`](char16trie::Char16Trie)
//! - `cursor`: [`Char16TrieCursor`](char16trie::Char16TrieCursor), for look-up unit by unit;
//!   `write`: look-up of text that is written to it
//! - `iterator`: [`Char16TrieIterator`](char16trie::Char16TrieIterator), a cursor with a result for
//!   each step
//! - `lookup`: the value of a key; `text_units`: of one that is a text, by its UTF-16 units
//! - `dictionary`: the longest key that a text starts with; `matches`:
//!   [`Matches`](char16trie::Matches), all such keys
//! - `soundness`: whether units are a trie; `counted`: the number of its entries
//! - `entries`: [`Iter2`](char16trie::Iter2), the entries in unit order, each with its own text
//! - `listing`: [`Entries`](char16trie::Entries), the entries through one buffer, from the root or
//!   from a cursor
//! - `walk`: how both move from one entry to the next; `front`: what comes next; `pending`: what is
//!   not visited yet; `spelling`: the key as text while it grows
//! - `next_units`: the units that can come next in some key
//! - `unique`: the value that all keys ahead of a cursor have
//! - `json`: reading and writing JSON
//! - `impl_const`: the constants of the format
//! - `place`, `step`, `branch`, `encoded`: positions of a cursor, steps between them, and numbers
//!   encoded in units

use crate::support::prelude::*;
mod branch;
pub mod char16trie;
mod counted;
mod cursor;
mod dictionary;
mod encoded;
mod entries;
mod front;
pub mod impl_const;
mod iterator;
mod json;
mod listing;
mod lookup;
mod matches;
mod next_units;
mod pending;
mod place;
mod soundness;
mod spelling;
mod step;
mod text_units;
mod trie;
mod unique;
mod walk;
mod write;
