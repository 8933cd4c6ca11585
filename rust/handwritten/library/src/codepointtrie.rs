//! Maps from code points to values that are read in place (ICU's code point tries).
//!
//! [`CodePointTrieBuilder`] builds a trie, [`CodePointTrie::get32`] looks a code point up, and
//! [`CodePointTrieBuilder::from_trie`] changes a trie and builds it again. [`binary::from_binary`]
//! reads in place a trie that ICU wrote. [`CodePointTrie::try_new`] makes a trie of its parts,
//! which may be borrowed, and [`trie_of!`](crate::trie_of) a static one of what the program `ucptrie`
//! writes. [`text::values_of`] returns each character of a text with its value.
//!
//! ```
//! use bekstaudi::codepointtrie::{CodePointTrieBuilder, TrieType};
//!
//! let mut builder = CodePointTrieBuilder::new('-', '!', TrieType::Small);
//! builder.set_range_value(0x30..=0x39, '0');
//! let trie = builder.build();
//! let ranges: Vec<_> = trie.iter_ranges().map(|it| (it.range, it.value)).collect();
//! assert_eq!(ranges[1], (0x30..=0x39, '0'));
//! assert_eq!(trie.get('7'), '0');
//! assert_eq!(trie.get32(0x110000), '!');
//! let mut builder = CodePointTrieBuilder::from_trie(&trie);
//! builder.set_value(0x37, '7');
//! assert_eq!(builder.get(0x37), '7');
//! assert_eq!(builder.get_range(0x38).map(|it| it.range), Some(0x38..=0x39));
//! assert_eq!(builder.build().get('8'), '0');
//! ```
//!
//! ```
//! use bekstaudi::codepointtrie::{CodePointTrieBuilder, TrieType, text};
//!
//! let mut builder = CodePointTrieBuilder::new(0u8, 9, TrieType::Fast);
//! builder.set_range_value(0x61..=0x7A, 1);
//! let trie = builder.build();
//! let values: Vec<_> = text::values_of_utf8(&trie, b"a\xF1\x80B").collect();
//! assert_eq!(values, [('a', 1), ('\u{FFFD}', 9), ('B', 0)]);
//! let mut buffer = [0; 4];
//! let copied = text::copy_values(&trie, b"a\xF1\x80B", &mut buffer);
//! assert_eq!((copied.values, copied.bytes, buffer), (3, 4, [1, 9, 0, 0]));
//! let found = text::find_value(&trie, "abC", |value| value == 0);
//! assert_eq!(found.map(|it| it.offset), Some(2));
//! ```

pub use crate::constant::ConstValue;
#[doc(hidden)]
pub use crate::constant::null_number;
#[doc(hidden)]
pub use crate::constant_values::named;
pub use crate::icu_trie::cptrie::CodePointTrie;
pub use crate::icu_trie::error::{CodePointTrieError, ConvertError, PartsError};
pub use crate::icu_trie::header::{CodePointTrieHeader, TrieType};
pub use crate::icu_trie::impl_const;
pub use crate::icu_trie::map_value::MapError;
pub use crate::icu_trie::mapped_ranges::IterRangesMapped;
pub use crate::icu_trie::ranges::{CodePointMapRange, CodePointMapRangeIterator};
pub use crate::icu_trie::ranges_of_value::IterRangesForValue;
pub use crate::icu_trie::typed::{
    FastCodePointTrie, SmallCodePointTrie, Typed, TypedCodePointTrie, TypedCodePointTrieError,
    Untyped,
};
pub use crate::icu_trie::value::{NotAValue, TrieValue};
pub use crate::icu_trie::view::TrieView;
pub use crate::icu_trie_binary::binary;
#[cfg(feature = "alloc")]
pub use crate::icu_trie_builder::builder::CodePointTrieBuilder;
#[cfg(feature = "alloc")]
pub use crate::icu_trie_builder::error::BuildError;
#[cfg(feature = "alloc")]
pub use crate::icu_trie_builder::try_build_from_writes;
#[cfg(feature = "alloc")]
pub use crate::icu_trie_builder::writes::{ApplyRefused, Write};
#[cfg(feature = "json")]
pub use crate::icu_trie_formats::json;
pub use crate::icu_trie_formats::planes;
#[cfg(any(feature = "serde", feature = "toml"))]
pub use crate::icu_trie_formats::trie_toml;
#[cfg(feature = "serde")]
#[doc(no_inline)]
pub use crate::icu_trie_formats::trie_toml as toml;
pub use crate::icu_trie_text::text;

#[cfg(feature = "alloc")]
use crate::codepointinvlist::CodePointInversionList;
#[cfg(feature = "alloc")]
use crate::plain::plain;
#[cfg(feature = "alloc")]
use crate::zerovec::MemoryError;
use crate::icu_trie::iterator_utils;
use crate::zerovec::ule::UleError;
#[cfg(feature = "alloc")]
use core::ops::RangeInclusive;

#[cfg(feature = "alloc")]
impl<T: TrieValue> CodePointTrie<'_, T> {
    /// Returns the same trie, which then owns its index and its data. What it already owns is not
    /// copied.
    ///
    /// # Errors
    /// Returns [`MemoryError`] if an allocation fails. The trie is then dropped.
    pub fn try_into_owned(self) -> Result<CodePointTrie<'static, T>, MemoryError> {
        Ok(CodePointTrie {
            header: self.header,
            index: self.index.try_into_owned()?,
            data: self.data.try_into_owned()?,
        })
    }

    /// Returns the same trie, which then owns its index and its data. What it already owns is not
    /// copied.
    ///
    /// # Panics
    /// Panics if an allocation fails; [`try_into_owned`](Self::try_into_owned) returns an error
    /// then.
    #[must_use]
    pub fn into_owned(self) -> CodePointTrie<'static, T> {
        plain(self.try_into_owned())
    }

    /// Returns the set of code points whose range in [`iter_ranges`](Self::iter_ranges) has the
    /// value.
    ///
    /// If the trie is coherent, as every built one is, these are exactly the code points that have
    /// the value.
    ///
    /// ```
    /// use bekstaudi::codepointtrie::{CodePointTrieBuilder, TrieType};
    ///
    /// let mut builder = CodePointTrieBuilder::new(0u8, 9, TrieType::Small);
    /// builder.set_range_value(0x41..=0x5A, 1);
    /// let letters = builder.build().get_set_for_value(1);
    /// assert!(letters.contains('Z') && !letters.contains32(0x5B));
    /// ```
    ///
    /// # Panics
    /// Panics if an allocation fails; [`try_get_set_for_value`](Self::try_get_set_for_value)
    /// returns an error then.
    #[must_use]
    pub fn get_set_for_value(&self, value: T) -> CodePointInversionList<'static> {
        plain(self.try_get_set_for_value(value))
    }

    /// Returns the set of code points for whose range in [`iter_ranges`](Self::iter_ranges) the value
    /// is accepted by `is_wanted`, which is called once for each range.
    ///
    /// If the trie is coherent, as every built one is, these are exactly the code points whose value
    /// is accepted.
    ///
    /// ```
    /// use bekstaudi::codepointtrie::planes::get_planes_trie;
    ///
    /// let planes = get_planes_trie();
    /// let set = planes.try_get_set_where(|plane| plane == 1 || plane == 3)?;
    /// assert_eq!(set.get_inversion_list_vec(), [0x10000, 0x20000, 0x30000, 0x40000]);
    /// # Ok::<(), Box<dyn std::error::Error>>(())
    /// ```
    ///
    /// # Errors
    /// Returns [`MemoryError`] if an allocation fails.
    pub fn try_get_set_where(
        &self,
        is_wanted: impl Fn(T) -> bool,
    ) -> Result<CodePointInversionList<'static>, MemoryError> {
        let wanted = self.iter_ranges_mapped(is_wanted).filter(|it| it.value);
        CodePointInversionList::try_from_iter(wanted.map(|it| it.range))
    }

    /// Returns the set of code points for whose range in [`iter_ranges`](Self::iter_ranges) the value
    /// is accepted by `is_wanted`, which is called once for each range.
    ///
    /// If the trie is coherent, as every built one is, these are exactly the code points whose value
    /// is accepted.
    ///
    /// ```
    /// use bekstaudi::codepointtrie::planes::get_planes_trie;
    ///
    /// let upper = get_planes_trie().get_set_where(|plane| plane >= 15);
    /// assert_eq!(upper.get_inversion_list_vec(), [0xF0000, 0x110000]);
    /// ```
    ///
    /// # Panics
    /// Panics if an allocation fails; [`try_get_set_where`](Self::try_get_set_where) returns an error
    /// then.
    #[must_use]
    pub fn get_set_where(&self, is_wanted: impl Fn(T) -> bool) -> CodePointInversionList<'static> {
        plain(self.try_get_set_where(is_wanted))
    }
}

impl<T: TrieValue> CodePointTrie<'_, T> {
    /// Returns the range of code points from `c` on whose values have the same result of `map` as that
    /// of `c`, with this result (ICU: `ucptrie_getRange` with a filter).
    ///
    /// It calls `map` for the value of each range that [`get_range`](Self::get_range) returns from `c`
    /// on, up to the first one with another result. If the trie is coherent, as every built one is,
    /// the range is the longest run of equal results from `c` on.
    ///
    /// Returns `None` if `get_range` does, so for each `c` above 0x10FFFF.
    ///
    /// ```
    /// use bekstaudi::codepointtrie::planes::get_planes_trie;
    ///
    /// let range = get_planes_trie().get_range_mapped(0x12345, |plane| plane < 3);
    /// assert_eq!(range.map(|it| (it.range, it.value)), Some((0x12345..=0x2FFFF, true)));
    /// ```
    #[must_use]
    pub fn get_range_mapped<U: Eq>(
        &self,
        c: u32,
        map: impl Fn(T) -> U,
    ) -> Option<CodePointMapRange<U>> {
        let mut next = c;
        let ranges = core::iter::from_fn(|| {
            let CodePointMapRange { range, value } = self.get_range(next)?;
            next = *range.end() + 1;
            let value = map(value);
            Some(CodePointMapRange { range, value })
        });
        iterator_utils::RangeListIteratorCoalescer::new(ranges).next()
    }
}

#[cfg(feature = "alloc")]
impl<'trie, T: TrieValue> CodePointTrie<'trie, T> {
    /// Returns a trie whose values are the results of `f` for the values of this one. Its index and
    /// trie type are the same.
    ///
    /// It calls `f` for the error value, for the null value, and then for each data cell in order,
    /// so as often for a value as the value occurs in the data.
    ///
    /// ```
    /// use bekstaudi::codepointtrie::planes::get_planes_trie;
    ///
    /// let planes = get_planes_trie();
    /// let doubled = planes.try_alloc_map_value(|plane| plane.checked_mul(20).ok_or(plane));
    /// assert_eq!(doubled, Err(13));
    /// let doubled = planes.try_alloc_map_value(|plane| Ok::<u16, u8>(u16::from(plane) * 2))?;
    /// assert_eq!(doubled.get32(0x10FFFF), 32);
    /// # Ok::<(), u8>(())
    /// ```
    ///
    /// # Errors
    /// Returns the first error that `f` returns, after which `f` is not called again.
    ///
    /// # Panics
    /// Panics if an allocation fails;
    /// [`try_alloc_map_value_fallible`](Self::try_alloc_map_value_fallible) returns an error then.
    pub fn try_alloc_map_value<P: TrieValue, E>(
        &self,
        f: impl FnMut(T) -> Result<P, E>,
    ) -> Result<CodePointTrie<'static, P>, E> {
        match self.try_alloc_map_value_fallible(f) {
            Ok(trie) => Ok(trie),
            Err(MapError::Closure(error)) => Err(error),
            Err(MapError::Memory) => plain(Err(MemoryError)),
        }
    }

}

impl<'trie, T: TrieValue> CodePointTrie<'trie, T> {
    /// Converts the trie to values of another type of the same width, without copying.
    ///
    /// The index and the bytes of the data are unchanged, and borrowed or owned as before. The
    /// header's null value becomes the other type's number for the same packed bytes.
    ///
    /// # Errors
    /// The trie is dropped, and the first of these that applies is returned:
    /// - `UleError::Length` if values of the two types take different numbers of bytes;
    /// - `UleError::Cell` with the position of the first data cell that is not a value of the other
    ///   type, or with the number of cells if only the null value is not.
    ///
    /// [`try_into_converted_explained`](Self::try_into_converted_explained) has an error of its own
    /// for each case.
    pub fn try_into_converted<P: TrieValue>(self) -> Result<CodePointTrie<'trie, P>, UleError> {
        let len = self.parts().2.len();
        self.try_into_converted_explained()
            .map_err(|error| match error {
                ConvertError::Width => UleError::Length,
                ConvertError::Cell(place) => UleError::Cell(place),
                ConvertError::ErrorOrNull => UleError::Cell(len),
            })
    }
}

#[cfg(feature = "alloc")]
impl<T: TrieValue> CodePointTrieBuilder<T> {
    /// Makes a builder with the values of a trie, which can then be changed and built again. It has
    /// the trie's type and its error value.
    ///
    /// At every number it returns what the trie returns, even if the trie's header is wrong: it
    /// reads a coherent trie range by range, and any other one by look-ups. Code points for which
    /// the trie lacks a cell get the error value.
    ///
    /// The default is the value of 0x10FFFF, so that most code points need no memory.
    ///
    /// ICU: `umutablecptrie_fromUCPTrie`.
    ///
    /// ```
    /// use bekstaudi::codepointtrie::CodePointTrieBuilder;
    /// use bekstaudi::codepointtrie::planes::get_planes_trie;
    ///
    /// let mut builder = CodePointTrieBuilder::from_trie(&get_planes_trie());
    /// builder.set_value(0x41, 7);
    /// let amended = builder.build();
    /// assert_eq!(amended.get('A'), 7);
    /// assert_eq!(amended.get32(0x1F600), 1);
    /// ```
    ///
    /// # Panics
    /// Panics if an allocation fails; [`try_from_trie`](Self::try_from_trie) returns an error then.
    #[must_use]
    pub fn from_trie(trie: &CodePointTrie<'_, T>) -> CodePointTrieBuilder<T> {
        plain(CodePointTrieBuilder::try_from_trie(trie))
    }

    /// Sets the value of the code point `c`. If `c` is above 0x10FFFF, nothing is written.
    ///
    /// ```
    /// use bekstaudi::codepointtrie::{CodePointTrieBuilder, TrieType};
    ///
    /// let mut builder = CodePointTrieBuilder::new(0u8, 9, TrieType::Fast);
    /// builder.set_value(0x1234, 7);
    /// builder.set_value(0x110000, 8);
    /// assert_eq!(builder.get(0x1234), 7);
    /// assert_eq!(builder.get(0x110000), 9);
    /// ```
    ///
    /// # Panics
    /// Panics if an allocation fails; [`try_set_value`](Self::try_set_value) returns an error then.
    pub fn set_value(&mut self, c: u32, value: T) {
        plain(self.try_set_value(c, value));
    }

    /// Sets the value of each code point in `range`, whose bounds are both inclusive.
    ///
    /// If the range is reversed or starts above 0x10FFFF, nothing is written. If it ends above
    /// 0x10FFFF, the code points up to 0x10FFFF are written.
    ///
    /// ```
    /// use bekstaudi::codepointtrie::{CodePointTrieBuilder, TrieType};
    ///
    /// let mut builder = CodePointTrieBuilder::new(0u8, 9, TrieType::Fast);
    /// builder.set_range_value(0x1000..=0x1FFF, 8);
    /// builder.set_range_value(0x10FFFF..=0x110005, 1);
    /// assert_eq!(builder.get(0x1FFF), 8);
    /// assert_eq!(builder.get(0x10FFFF), 1);
    /// ```
    ///
    /// # Panics
    /// Panics if an allocation fails; [`try_set_range_value`](Self::try_set_range_value) returns an
    /// error then.
    pub fn set_range_value(&mut self, range: RangeInclusive<u32>, value: T) {
        plain(self.try_set_range_value(range, value));
    }

    /// Builds the trie of the map. It has the builder's trie type, and owns its index and its data.
    ///
    /// ```
    /// use bekstaudi::codepointtrie::{CodePointTrieBuilder, TrieType};
    ///
    /// let mut builder = CodePointTrieBuilder::new(0u16, 9, TrieType::Small);
    /// builder.set_value(0x20000, 10);
    /// let trie = builder.build();
    /// assert_eq!(trie.get32(0x20000), 10);
    /// assert_eq!(trie.get32(0x1FFFF), 0);
    /// ```
    ///
    /// # Panics
    /// Panics if an allocation fails, or if the map has too many different blocks;
    /// [`try_build`](Self::try_build) returns an error then.
    #[must_use]
    pub fn build(self) -> CodePointTrie<'static, T> {
        plain(self.try_build())
    }
}

/// Builds a trie from a list of writes, applied in order to a map that has the default everywhere.
/// Each code point gets the value of the last accepted write that covers it.
///
/// ```
/// use bekstaudi::codepointtrie::{TrieType, Write, build_from_writes};
///
/// let writes = [Write::Range(0x41..=0x5A, 1u8), Write::One(0x41, 0)];
/// let trie = build_from_writes(0, 9, TrieType::Fast, &writes);
/// assert_eq!(trie.get32(0x41), 0);
/// assert_eq!(trie.get32(0x5A), 1);
/// assert_eq!(trie.get32(0x110000), 9);
/// ```
///
/// # Panics
/// Panics if an allocation fails, or if the map has too many different blocks;
/// [`try_build_from_writes`] returns an error then.
#[cfg(feature = "alloc")]
#[must_use]
pub fn build_from_writes<T: TrieValue>(
    default: T,
    error: T,
    trie_type: TrieType,
    writes: &[Write<T>],
) -> CodePointTrie<'static, T> {
    plain(try_build_from_writes(default, error, trie_type, writes))
}
