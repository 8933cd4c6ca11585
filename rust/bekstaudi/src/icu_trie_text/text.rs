//! Values of a trie along texts in UTF-8 and UTF-16.
//!
//! ```
//! use bekstaudi::codepointtrie::{CodePointTrieBuilder, TrieType, text};
//!
//! let mut builder = CodePointTrieBuilder::new(0u8, 9, TrieType::Fast);
//! builder.set_range_value(0x61..=0x7A, 2);
//! let letters = builder.build();
//! // Each character with its value, and from which byte on the text has no letter.
//! let values: Vec<_> = text::values_of(&letters, "a7").collect();
//! assert_eq!(values, [('a', 2), ('7', 0)]);
//! assert_eq!(text::span_of_values(&letters, "ab7", |value| value == 2), 2);
//! // The values alone, of bytes that may be ill-formed.
//! let mut buffer = [0; 3];
//! text::copy_values(&letters, b"a\xFFb", &mut buffer);
//! assert_eq!(buffer, [2, 9, 2]);
//! ```

pub use crate::icu_trie_text::copy::copy_values;
pub use crate::icu_trie_text::copy_parts::Copied;
pub use crate::icu_trie_text::find::{find_value, span_of_values};
pub use crate::icu_trie_text::found::Found;
pub use crate::icu_trie_text::indices::{ValueIndicesOf, value_indices_of};
pub use crate::icu_trie_text::utf8::{ValuesOfUtf8, values_of_utf8};
pub use crate::icu_trie_text::utf16::{ValuesOfUtf16, values_of_utf16};
pub use crate::icu_trie_text::values::{ValuesOf, values_of};
use crate::support::prelude::*;
