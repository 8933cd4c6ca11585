//! Maps from lists of 16-bit units to numbers, under the Rust crate's names.

pub use crate::icu_char16trie::cursor::Char16TrieCursor;
pub use crate::icu_char16trie::entries::Iter2;
pub use crate::icu_char16trie::iterator::{Char16TrieIterator, TrieResult};
#[cfg(feature = "json")]
pub use crate::icu_char16trie::json::Char16JsonError;
pub use crate::icu_char16trie::listing::Entries;
pub use crate::icu_char16trie::matches::Matches;
pub use crate::icu_char16trie::place::CursorPlace;
pub use crate::icu_char16trie::trie::Char16Trie;
use crate::support::prelude::*;
