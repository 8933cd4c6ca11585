//! Traits of what is built or owns its data, that the proved sources lack.

use crate::codepointinvlist::{
    CodePointInversionList, CodePointInversionListBuilder, FrozenCodePointSet,
    FrozenCodePointSetAndStrings, RangeOf, Spans,
};
use crate::codepointinvliststringlist::CodePointInversionListAndStringList;
use crate::codepointtrie::{CodePointMapRange, CodePointTrieBuilder, TrieValue};
use crate::icu_zerovec::CODE_POINT_LIMIT;
use crate::plain::{fused, plain};
use alloc::string::String;
use alloc::vec::Vec;
use core::hash::{Hash, Hasher};
use core::ops::RangeInclusive;

fused! {
    <'s, 't> Spans<'s, 't>;
}

/// Sets the value of each range, in order, as
/// [`set_range_value`](CodePointTrieBuilder::set_range_value) does.
///
/// # Panics
/// Panics if an allocation fails.
impl<T: TrieValue> Extend<(RangeInclusive<u32>, T)> for CodePointTrieBuilder<T> {
    fn extend<I: IntoIterator<Item = (RangeInclusive<u32>, T)>>(&mut self, ranges: I) {
        for (range, value) in ranges {
            self.set_range_value(range, value);
        }
    }
}

/// Sets the value of each range, in order, as
/// [`set_range_value`](CodePointTrieBuilder::set_range_value) does.
///
/// # Panics
/// Panics if an allocation fails.
impl<T: TrieValue> Extend<CodePointMapRange<T>> for CodePointTrieBuilder<T> {
    fn extend<I: IntoIterator<Item = CodePointMapRange<T>>>(&mut self, ranges: I) {
        self.extend(ranges.into_iter().map(|it| (it.range, it.value)));
    }
}

/// Returns the boundaries of the union of ranges. Like
/// [`add_range32`](CodePointInversionListBuilder::add_range32) it ignores a range that is empty, or
/// whose last number is above 0x10FFFF.
fn ends_of(mut ranges: Vec<(u32, u32)>) -> Vec<u32> {
    ranges.retain(|&(start, last)| start <= last && last < CODE_POINT_LIMIT);
    ranges.sort_unstable();
    let mut ends: Vec<u32> = Vec::new();
    for (start, last) in ranges {
        match ends.last_mut() {
            Some(end) if start <= *end => *end = (*end).max(last + 1),
            _ => ends.extend([start, last + 1]),
        }
    }
    ends
}

/// Returns the union of the ranges, which may be in any order and overlap. A range whose last number
/// is above 0x10FFFF is ignored.
///
/// # Panics
/// Panics if an allocation fails; [`CodePointInversionList::try_from_iter`] returns an error then.
impl FromIterator<RangeInclusive<u32>> for CodePointInversionList<'_> {
    fn from_iter<I: IntoIterator<Item = RangeInclusive<u32>>>(ranges: I) -> Self {
        let bounds = ranges.into_iter().map(|it| it.deconstruct());
        let ends = ends_of(
            bounds
                .filter(|it| it.0 < it.1)
                .map(|it| (it.0, it.1 - 1))
                .collect(),
        );
        plain(CodePointInversionList::from_valid_slice(&ends))
    }
}

/// Returns the set of the characters, which may be in any order and repeat.
///
/// # Panics
/// Panics if an allocation fails.
impl FromIterator<char> for CodePointInversionList<'_> {
    fn from_iter<I: IntoIterator<Item = char>>(characters: I) -> Self {
        let points = characters.into_iter().map(u32::from);
        let ends = ends_of(points.map(|c| (c, c)).collect());
        plain(CodePointInversionList::from_valid_slice(&ends))
    }
}

/// Returns the union of the ranges, which may be in any order and overlap. A range of characters
/// includes the surrogates between them.
///
/// # Panics
/// Panics if an allocation fails.
impl FromIterator<RangeInclusive<char>> for CodePointInversionList<'_> {
    fn from_iter<I: IntoIterator<Item = RangeInclusive<char>>>(ranges: I) -> Self {
        let bounds = ranges.into_iter().map(RangeOf::deconstruct);
        let ranges = bounds.filter(|it| it.0 < it.1).map(|it| (it.0, it.1 - 1));
        plain(CodePointInversionList::from_valid_slice(&ends_of(ranges.collect())))
    }
}

macro_rules! collected {
    ($($item:ty)*) => {
        $(
            /// # Panics
            /// Panics if an allocation fails.
            impl FromIterator<$item> for CodePointInversionListBuilder {
                fn from_iter<I: IntoIterator<Item = $item>>(items: I) -> Self {
                    let mut builder = CodePointInversionListBuilder::new();
                    builder.extend(items);
                    builder
                }
            }

            /// Adds all items, which may be in any order.
            ///
            /// # Panics
            /// Panics if an allocation fails.
            impl Extend<$item> for CodePointInversionListBuilder {
                fn extend<I: IntoIterator<Item = $item>>(&mut self, items: I) {
                    self.add_set(&items.into_iter().collect());
                }
            }
        )*
    };
}

collected! { char RangeInclusive<char> RangeInclusive<u32> }

impl From<CodePointInversionList<'_>> for CodePointInversionListBuilder {
    /// Returns a builder that holds the set, to be changed.
    ///
    /// # Panics
    /// Panics if an allocation fails.
    fn from(set: CodePointInversionList<'_>) -> Self {
        let mut builder = CodePointInversionListBuilder::new();
        builder.add_set(&set);
        builder
    }
}

/// Hashes the set that was frozen, which `==` compares.
impl Hash for FrozenCodePointSet {
    fn hash<H: Hasher>(&self, state: &mut H) {
        self.as_set().hash(state);
    }
}

/// Hashes the set that was frozen, which `==` compares.
impl Hash for FrozenCodePointSetAndStrings {
    fn hash<H: Hasher>(&self, state: &mut H) {
        self.as_set().hash(state);
    }
}

/// # Panics
/// Panics if an allocation fails.
impl FromIterator<String> for CodePointInversionListAndStringList<'_> {
    fn from_iter<I: IntoIterator<Item = String>>(texts: I) -> Self {
        let texts: Vec<String> = texts.into_iter().collect();
        texts.iter().map(String::as_str).collect()
    }
}

/// Returns the empty set. Does not allocate.
impl Default for CodePointInversionListAndStringList<'_> {
    fn default() -> Self {
        CodePointInversionList::default().into()
    }
}

/// Returns the set of these code points, without strings. Does not allocate.
impl<'data> From<CodePointInversionList<'data>> for CodePointInversionListAndStringList<'data> {
    fn from(code_points: CodePointInversionList<'data>) -> Self {
        match CodePointInversionListAndStringList::try_from(code_points, Vec::new()) {
            Ok(set) => set,
            Err(_) => unreachable!("an empty list has no fault"),
        }
    }
}

/// Hashes the code points and the strings, which `==` compares.
impl Hash for CodePointInversionListAndStringList<'_> {
    fn hash<H: Hasher>(&self, state: &mut H) {
        (self.code_points(), self.strings()).hash(state);
    }
}
