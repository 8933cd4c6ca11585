//! Traits of sets, tries and vectors that the proved sources lack.

use crate::char16trie::{Char16Trie, Iter2, Matches};
use crate::codepointinvlist::{
    CodePointInversionList, IterChars, IterRanges, IterRangesComplemented,
};
use crate::codepointtrie::binary::AnyWidthTrie;
use crate::codepointtrie::{
    CodePointMapRange, CodePointMapRangeIterator, CodePointTrie, FastCodePointTrie,
    IterRangesForValue, IterRangesMapped, SmallCodePointTrie, TrieValue, Typed, TypedCodePointTrie,
    text,
};
use crate::icu_trie::iterator_utils::RangeListIteratorCoalescer;
use crate::icu_trie::mapped_ranges::MappedRanges;
use crate::plain::fused;
use crate::zerovec::iter::Iter;
use crate::zerovec::ule::AsULE;
use crate::zerovec::{ZeroSlice, ZeroVec};
use core::hash::{Hash, Hasher};
use core::iter::FusedIterator;
use core::ops::RangeInclusive;

fused! {
    <'a> IterRanges<'a>;
    <'a> IterRangesComplemented<'a>;
    <'a> IterChars<'a>;
    <'a> Iter2<'a>;
    <'a> Matches<'a>;
    <'a, T: TrieValue> CodePointMapRangeIterator<'a, T>;
    <'a, T: TrieValue> IterRangesForValue<'a, T>;
    <'a, T: TrieValue> text::ValuesOf<'a, T>;
    <'a, T: TrieValue> text::ValueIndicesOf<'a, T>;
    <'a, T: TrieValue> text::ValuesOfUtf16<'a, T>;
    <'a, T: TrieValue> text::ValuesOfUtf8<'a, T>;
}

impl<T: TrieValue, U, F: Fn(T) -> U> FusedIterator for MappedRanges<'_, T, F> {}

impl<T: TrieValue, U: Eq, F: Fn(T) -> U> FusedIterator for IterRangesMapped<'_, T, U, F> {}

impl<I: Iterator<Item = CodePointMapRange<U>>, U: Eq> FusedIterator
    for RangeListIteratorCoalescer<I, U>
{
}

/// Hashes the header, the index and the data, which `==` compares.
impl<T: TrieValue> Hash for CodePointTrie<'_, T> {
    fn hash<H: Hasher>(&self, state: &mut H) {
        self.parts().hash(state);
    }
}

impl<T: TrieValue> Hash for FastCodePointTrie<'_, T> {
    fn hash<H: Hasher>(&self, state: &mut H) {
        self.as_untyped_ref().hash(state);
    }
}

impl<T: TrieValue> Hash for SmallCodePointTrie<'_, T> {
    fn hash<H: Hasher>(&self, state: &mut H) {
        self.as_untyped_ref().hash(state);
    }
}

/// Hashes the units, which `==` compares.
impl Hash for Char16Trie<'_> {
    fn hash<H: Hasher>(&self, state: &mut H) {
        self.data.hash(state);
    }
}

/// Returns the trie of the empty map. Does not allocate.
impl Default for Char16Trie<'_> {
    fn default() -> Self {
        Char16Trie::new(ZeroVec::default())
    }
}

impl<'a> IntoIterator for &'a CodePointInversionList<'_> {
    type Item = RangeInclusive<u32>;
    type IntoIter = IterRanges<'a>;

    fn into_iter(self) -> IterRanges<'a> {
        self.iter_ranges()
    }
}

impl<'a, T: AsULE> IntoIterator for &'a ZeroVec<'_, T> {
    type Item = T;
    type IntoIter = Iter<'a, T>;

    fn into_iter(self) -> Iter<'a, T> {
        self.iter()
    }
}

impl<'a, T: AsULE> IntoIterator for ZeroSlice<'a, T> {
    type Item = T;
    type IntoIter = Iter<'a, T>;

    fn into_iter(self) -> Iter<'a, T> {
        self.iter()
    }
}

/// Borrows what the trie borrows, and copies what it owns.
///
/// # Panics
/// Panics if an allocation fails; `try_clone` returns an error then.
impl<T: TrieValue> Clone for CodePointTrie<'_, T> {
    fn clone(&self) -> Self {
        CodePointTrie {
            header: self.header,
            index: self.index.clone(),
            data: self.data.clone(),
        }
    }
}

/// Borrows what the set borrows, and copies what it owns.
///
/// # Panics
/// Panics if an allocation fails; `try_clone` returns an error then.
impl Clone for CodePointInversionList<'_> {
    fn clone(&self) -> Self {
        CodePointInversionList {
            ends: self.ends.clone(),
            size: self.size,
        }
    }
}

/// Borrows what the trie borrows, and copies what it owns.
///
/// # Panics
/// Panics if an allocation fails; `try_clone` returns an error then.
impl Clone for Char16Trie<'_> {
    fn clone(&self) -> Self {
        Char16Trie::new(self.data.clone())
    }
}

macro_rules! typed_clone {
    ($($name:ident $variant:ident;)*) => {
        $(
            /// Borrows what the trie borrows, and copies what it owns.
            ///
            /// # Panics
            /// Panics if an allocation fails.
            impl<T: TrieValue> Clone for $name<'_, T> {
                fn clone(&self) -> Self {
                    match self.as_untyped_ref().clone().to_typed() {
                        Typed::$variant(trie) => trie,
                        _ => unreachable!("a clone has the same type"),
                    }
                }
            }
        )*
    };
}

typed_clone! {
    FastCodePointTrie Fast;
    SmallCodePointTrie Small;
}

/// Borrows what the trie borrows, and copies what it owns.
///
/// # Panics
/// Panics if an allocation fails.
impl Clone for AnyWidthTrie<'_> {
    fn clone(&self) -> Self {
        match self {
            AnyWidthTrie::Bits8(trie) => AnyWidthTrie::Bits8(trie.clone()),
            AnyWidthTrie::Bits16(trie) => AnyWidthTrie::Bits16(trie.clone()),
            AnyWidthTrie::Bits32(trie) => AnyWidthTrie::Bits32(trie.clone()),
        }
    }
}
