//! The trie over packed vectors.

use crate::icu_trie::error::PartsError;
use crate::icu_trie::view::TrieView;
use crate::icu_trie_core::error::CodePointTrieError;
use crate::icu_trie_core::header::CodePointTrieHeader;
use crate::icu_trie_core::value::TrieValue;
use crate::icu_zerovec::{MemoryError, ZeroSlice, ZeroVec};
use crate::support::prelude::*;

/// A map from all code points to values, stored in two packed vectors in the format of ICU's code
/// point tries (`UCPTrie`).
///
/// The parts of a trie are checked when it is made, so every look-up returns a value and reads
/// nothing outside the trie. An untrusted trie may have wrong values.
///
/// ```
/// use bekstaudi::codepointtrie::{CodePointTrieBuilder, TrieType};
///
/// // The default value 0, the error value 9, and 1 for the letters A to Z.
/// let mut builder = CodePointTrieBuilder::new(0u8, 9, TrieType::Small);
/// builder.set_range_value(0x41..=0x5A, 1);
/// let trie = builder.build();
/// assert_eq!(trie.get('A'), 1);
/// assert_eq!(trie.get32(0x5B), 0);
/// assert_eq!(trie.get32(0x110000), 9);
/// let letters = trie.get_set_for_value(1);
/// assert_eq!(letters.iter_ranges().collect::<Vec<_>>(), [0x41..=0x5A]);
/// ```
#[derive(Debug)]
pub struct CodePointTrie<'trie, T: TrieValue> {
    pub(crate) header: CodePointTrieHeader,
    pub(crate) index: ZeroVec<'trie, u16>,
    pub(crate) data: ZeroVec<'trie, T>,
}

impl<'trie, T: TrieValue> CodePointTrie<'trie, T> {
    /// Makes a trie of these parts.
    ///
    /// The header is checked only for its null value and its trie type. If it is wrong in other
    /// ways, look-ups still return values.
    ///
    /// ```
    /// use bekstaudi::codepointtrie::{CodePointTrie, CodePointTrieHeader, TrieType};
    ///
    /// let header = CodePointTrieHeader {
    ///     high_start: 0x1000,
    ///     shifted12_high_start: 1,
    ///     index3_null_offset: 0,
    ///     data_null_offset: 0,
    ///     null_value: 0,
    ///     trie_type: TrieType::Small,
    /// };
    /// let index = [0; 64].into_iter().collect();
    /// let data = (1u8..=64).collect();
    /// let trie = CodePointTrie::try_new(header, index, data)?;
    /// assert_eq!(trie.get32(0x41), 2);
    /// assert_eq!(trie.get32(0x1000), 63);
    /// assert_eq!(trie.get32(0x110000), 64);
    /// # Ok::<(), Box<dyn std::error::Error>>(())
    /// ```
    ///
    /// # Errors
    /// Returns the first of these that applies:
    /// - `EmptyDataVector` if `data` is empty;
    /// - `InvalidNullValue` if the header's null value is not the number of any `T`;
    /// - `IndexTooShortForFastAccess` if `index` has fewer than 1,024 cells (`Fast`) or 64
    ///   (`Small`);
    /// - `DataTooShortForFastAccess` if `data` has fewer cells than the greatest offset in the fast
    ///   index plus 64.
    #[inline(always)]
    pub fn try_new(
        header: CodePointTrieHeader,
        index: ZeroVec<'trie, u16>,
        data: ZeroVec<'trie, T>,
    ) -> Result<Self, CodePointTrieError> {
        TrieView::try_new(header, index.as_slice(), data.as_slice())?;
        Ok(CodePointTrie {
            header,
            index,
            data,
        })
    }

    /// Makes a trie of copies of these parts.
    ///
    /// It packs the index and the values, with one allocation for each.
    ///
    /// # Errors
    /// Returns `Memory` if an allocation fails, and `Trie` with the error of
    /// [`try_new`](Self::try_new) for these parts.
    #[inline]
    pub fn alloc_from_slices(
        header: CodePointTrieHeader,
        index: &[u16],
        values: &[T],
    ) -> Result<CodePointTrie<'static, T>, PartsError> {
        let index = ZeroVec::alloc_from_slice(index)?;
        let data = ZeroVec::alloc_from_slice(values)?;
        let trie = CodePointTrie::try_new(header, index, data)?;
        Ok(trie)
    }

    /// Returns a view of the trie. It borrows the index and the data.
    #[inline(always)]
    #[must_use]
    pub fn as_view(&self) -> TrieView<'_, T> {
        TrieView::of_trie(self.header, self.index.as_slice(), self.data.as_slice())
    }

    /// Returns the value of the code point `c`, or the error value if `c` is above 0x10FFFF or if
    /// the trie lacks a cell for it.
    ///
    /// ```
    /// use bekstaudi::codepointtrie::{CodePointTrieBuilder, TrieType};
    ///
    /// let trie = CodePointTrieBuilder::new(0u8, 9, TrieType::Fast).build();
    /// assert_eq!(trie.get32(0x10FFFF), 0);
    /// assert_eq!(trie.get32(u32::MAX), 9);
    /// ```
    #[inline(always)]
    #[must_use]
    pub fn get32(&self, c: u32) -> T {
        self.as_view().get32(c)
    }

    /// Returns the value of the character `c`.
    #[inline(always)]
    #[must_use]
    pub fn get(&self, c: char) -> T {
        self.as_view().get(c)
    }

    /// Returns the value of a code point in the Basic Multilingual Plane (0..=0xFFFF), which may be
    /// a surrogate.
    #[inline(always)]
    #[must_use]
    pub fn get16(&self, bmp: u16) -> T {
        self.as_view().get16(bmp)
    }

    /// Returns the value of a supplementary code point (0x10000..=0x10FFFF). For any other argument
    /// it returns what [`get32`](Self::get32) returns.
    #[inline]
    #[must_use]
    pub fn get32_supplementary(&self, supplementary: u32) -> T {
        self.get32(supplementary)
    }

    /// Returns the number of the value of the code point `c`: the `to_u32` of what
    /// [`get32`](Self::get32) returns.
    #[inline]
    #[must_use]
    pub fn get32_u32(&self, c: u32) -> u32 {
        self.as_view().get32_u32(c)
    }

    /// Returns the header, and references to the index and the data. [`try_new`](Self::try_new)
    /// accepts them again.
    #[must_use]
    #[inline]
    pub fn parts(&self) -> (CodePointTrieHeader, ZeroSlice<'_, u16>, ZeroSlice<'_, T>) {
        self.as_view().parts()
    }

    /// Returns an equal trie that owns its index and its data.
    ///
    /// # Errors
    /// Returns `MemoryError` if an allocation fails.
    #[inline]
    pub fn try_clone(&self) -> Result<CodePointTrie<'static, T>, MemoryError> {
        Ok(CodePointTrie {
            header: self.header,
            index: self.index.try_clone()?,
            data: self.data.try_clone()?,
        })
    }

    /// Returns the error value, which is the value of all numbers above 0x10FFFF: the last cell of
    /// the data.
    #[inline]
    #[must_use]
    pub fn error_value(&self) -> T {
        self.as_view().error_value()
    }

    /// Returns the null value: the value whose number is in the header. For a built trie it is
    /// unspecified which value that is.
    #[must_use]
    #[inline]
    pub fn null_value(&self) -> T {
        match T::try_from_u32(self.header.null_value) {
            Ok(value) => value,
            Err(_) => unreachable!(),
        }
    }
}
