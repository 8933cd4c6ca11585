//! The value of each character of bytes that may be ill-formed UTF-8, copied to a buffer.

use crate::icu_trie::cptrie::CodePointTrie;
use crate::icu_trie_core::value::TrieValue;
use crate::icu_trie_text::copy_parts::{Copied, copy_parts};
use crate::icu_trie_text::lookup::TextLookup;
use crate::support::prelude::*;

/// Writes the value of each character of the bytes to the start of a buffer, in order and as many
/// as fit.
///
/// The values are those of [`values_of_utf8`](crate::icu_trie_text::text::values_of_utf8): each maximal subpart of
/// an ill-formed sequence has the trie's error value. Returns how many values it wrote and how many
/// bytes these are for. The rest of the buffer is unchanged. It stops only if the buffer is full or
/// the bytes end, so call it again with the bytes that are left.
///
/// It takes less time than a loop over `values_of_utf8`. ICU: a loop over `UCPTRIE_FAST_U8_NEXT`.
///
/// ```
/// use bekstaudi::codepointtrie::{CodePointTrieBuilder, TrieType, text::copy_values};
///
/// let mut builder = CodePointTrieBuilder::new(0u8, 99, TrieType::Fast);
/// builder.set_range_value(0x61..=0x7A, 2);
/// builder.set_range_value(0x41..=0x5A, 1);
/// let categories = builder.build();
/// let mut buffer = [0; 4];
/// let copied = copy_values(&categories, b"a\xF1\x80\x80B1 ", &mut buffer);
/// // The space did not fit.
/// assert_eq!((copied.values, copied.bytes), (4, 6));
/// assert_eq!(buffer, [2, 99, 1, 0]);
/// ```
#[inline]
pub fn copy_values<T: TrieValue>(
    trie: &CodePointTrie<'_, T>,
    bytes: &[u8],
    values: &mut [T],
) -> Copied {
    copy_parts(&TextLookup::new(trie), bytes, values)
}
