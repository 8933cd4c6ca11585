//! The check whether a trie is coherent.

use crate::icu_trie::cptrie::CodePointTrie;
use crate::icu_trie::packed_cells::is_coherent_in;
use crate::icu_trie::view::TrieView;
use crate::icu_trie_core::value::TrieValue;
use crate::support::prelude::*;

impl<'a, T: TrieValue> TrieView<'a, T> {
    /// Returns true if the trie is coherent, as [`CodePointTrie::is_coherent`] does.
    #[must_use]
    #[inline]
    pub fn is_coherent(&self) -> bool {
        let (header, index, data) = self.parts();
        is_coherent_in(&header, index, data)
    }
}

impl<'trie, T: TrieValue> CodePointTrie<'trie, T> {
    /// Returns true if the trie is coherent: what its header says about the high value and about
    /// null blocks is true.
    ///
    /// `try_new` accepts headers that are wrong about this, since look-ups return a value for any
    /// header. Ranges trust the header: they skip each block that it names as null, by
    /// `data_null_offset` or `index3_null_offset`, and all code points from `high_start` on. In a
    /// coherent trie the skipped code points have the value that look-ups return. So `get_range`,
    /// `iter_ranges` and `get_set_for_value` are exact.
    ///
    /// Every built trie is coherent. A trie from a file can be checked once:
    ///
    /// ```
    /// use bekstaudi::codepointtrie::{CodePointTrie, CodePointTrieHeader, TrieType};
    ///
    /// // No block is as the header says the null block is, so ranges might differ from look-ups.
    /// let header = CodePointTrieHeader {
    ///     high_start: 0x1000,
    ///     shifted12_high_start: 1,
    ///     index3_null_offset: 0,
    ///     data_null_offset: 0,
    ///     null_value: 9,
    ///     trie_type: TrieType::Small,
    /// };
    /// let (index, data) = ([0; 64], [0u8; 128]);
    /// let trie = CodePointTrie::alloc_from_slices(header, &index, &data)?;
    /// assert!(!trie.is_coherent());
    /// # Ok::<(), Box<dyn std::error::Error>>(())
    /// ```
    ///
    /// A trie (ICU: `UCPTrie`) is coherent exactly if all of these hold:
    /// - `high_start` is a multiple of 512 and at most 0x110000;
    /// - look-ups of all code points from `high_start` on return the last data cell but one;
    /// - look-ups of code points below `high_start` read no cell outside the index or the data;
    /// - blocks of 64, of 16 and of 512 that the header names as null have the null value
    ///   throughout.
    ///
    /// The check allocates nothing. For any trie it reads a few cells for each aligned block.
    #[must_use]
    #[inline]
    pub fn is_coherent(&self) -> bool {
        self.as_view().is_coherent()
    }
}
