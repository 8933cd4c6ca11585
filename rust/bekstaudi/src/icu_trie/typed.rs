//! Tries with their trie type in the Rust type.
//!
//! The header of a trie has its type. `as_typed_ref` reads the type once, for all the look-ups of a
//! loop:
//!

use crate::icu_trie::cptrie::CodePointTrie;
use crate::icu_trie_core::header::TrieType;
use crate::icu_trie_core::value::TrieValue;
use crate::support::prelude::*;

/// A value that contains a trie, from which [`TypedCodePointTrie`] takes it.
pub trait Untyped {
    /// The type of the trie: a [`CodePointTrie`].
    type Trie;

    /// Returns a reference to the trie.
    fn untyped_ref(&self) -> &Self::Trie;

    /// Converts the value into the trie.
    fn into_untyped(self) -> Self::Trie
    where
        Self: Sized;
}

/// A trie whose type is known at compile time, so that look-ups do not test it.
///
/// ```
/// use bekstaudi::codepointtrie::planes::get_planes_trie;
/// use bekstaudi::codepointtrie::{Typed, TypedCodePointTrie};
///
/// fn sum_of<'trie>(trie: &impl TypedCodePointTrie<'trie, u8>, text: &str) -> u32 {
///     text.chars().map(|c| u32::from(trie.get(c))).sum()
/// }
///
/// // The type is tested once, before the loop.
/// let trie = get_planes_trie();
/// let sum = match trie.as_typed_ref() {
///     Typed::Fast(trie) => sum_of(&trie, "a\u{1F600}"),
///     Typed::Small(trie) => sum_of(&trie, "a\u{1F600}"),
/// };
/// assert_eq!(sum, 1);
/// ```
///
/// The tries of a user-defined type must all have the type [`TRIE_TYPE`](Self::TRIE_TYPE).
pub trait TypedCodePointTrie<'trie, T: TrieValue>: Untyped<Trie = CodePointTrie<'trie, T>> {
    /// The type of the trie.
    const TRIE_TYPE: TrieType;

    /// Returns a reference to the trie as a [`CodePointTrie`].
    #[inline(always)]
    fn as_untyped_ref(&self) -> &CodePointTrie<'trie, T> {
        self.untyped_ref()
    }

    /// Converts the trie into a [`CodePointTrie`].
    #[inline(always)]
    fn to_untyped(self) -> CodePointTrie<'trie, T>
    where
        Self: Sized,
    {
        self.into_untyped()
    }

    /// Returns the value of the code point `c`, as [`CodePointTrie::get32`] does.
    fn get32(&self, c: u32) -> T;

    /// Returns the value of the character `c`.
    fn get(&self, c: char) -> T;

    /// Returns the value of a code point in the Basic Multilingual Plane (0..=0xFFFF), which may be
    /// a surrogate. In a fast trie this takes two reads.
    #[inline(always)]
    fn get16(&self, bmp: u16) -> T {
        self.get32(u32::from(bmp))
    }

    /// Returns the value of a supplementary code point (0x10000..=0x10FFFF). For any other argument
    /// it returns what [`get32`](Self::get32) returns.
    #[inline(always)]
    fn get32_supplementary(&self, supplementary: u32) -> T {
        self.get32(supplementary)
    }

    /// Returns the number of the value of the code point `c`: the `to_u32` of what
    /// [`get32`](Self::get32) returns.
    #[inline(always)]
    fn get32_u32(&self, c: u32) -> u32 {
        self.get32(c).to_u32()
    }

    /// Returns the value of the code point `c` if it is below the fast limit, otherwise `None`. The
    /// fast limit is 0x10000 for a fast trie and 0x1000 for a small one.
    fn get32_by_fast_index(&self, c: u32) -> Option<T>;
}

/// A trie of the type `Fast`: look-ups in the whole Basic Multilingual Plane take two reads.
#[derive(Debug, PartialEq, Eq)]
pub struct FastCodePointTrie<'trie, T: TrieValue> {
    inner: CodePointTrie<'trie, T>,
}

impl<'trie, T: TrieValue> Untyped for FastCodePointTrie<'trie, T> {
    type Trie = CodePointTrie<'trie, T>;

    #[inline(always)]
    fn untyped_ref(&self) -> &CodePointTrie<'trie, T> {
        &self.inner
    }

    #[inline(always)]
    fn into_untyped(self) -> CodePointTrie<'trie, T> {
        self.inner
    }
}

impl<'trie, T: TrieValue> TypedCodePointTrie<'trie, T> for FastCodePointTrie<'trie, T> {
    const TRIE_TYPE: TrieType = TrieType::Fast;

    #[inline(always)]
    fn get32(&self, c: u32) -> T {
        self.inner.as_view().value_by_type(TrieType::Fast, c)
    }

    #[inline(always)]
    fn get(&self, c: char) -> T {
        self.inner.as_view().character_by_type(TrieType::Fast, c)
    }

    #[inline(always)]
    fn get32_by_fast_index(&self, c: u32) -> Option<T> {
        self.inner.as_view().fast_value_by_type(TrieType::Fast, c)
    }
}

/// A trie of the type `Small`: look-ups of code points below 0x1000 take two reads.
#[derive(Debug, PartialEq, Eq)]
pub struct SmallCodePointTrie<'trie, T: TrieValue> {
    inner: CodePointTrie<'trie, T>,
}

impl<'trie, T: TrieValue> Untyped for SmallCodePointTrie<'trie, T> {
    type Trie = CodePointTrie<'trie, T>;

    #[inline(always)]
    fn untyped_ref(&self) -> &CodePointTrie<'trie, T> {
        &self.inner
    }

    #[inline(always)]
    fn into_untyped(self) -> CodePointTrie<'trie, T> {
        self.inner
    }
}

impl<'trie, T: TrieValue> TypedCodePointTrie<'trie, T> for SmallCodePointTrie<'trie, T> {
    const TRIE_TYPE: TrieType = TrieType::Small;

    #[inline(always)]
    fn get32(&self, c: u32) -> T {
        self.inner.as_view().value_by_type(TrieType::Small, c)
    }

    #[inline(always)]
    fn get(&self, c: char) -> T {
        self.inner.as_view().character_by_type(TrieType::Small, c)
    }

    #[inline(always)]
    fn get32_by_fast_index(&self, c: u32) -> Option<T> {
        self.inner.as_view().fast_value_by_type(TrieType::Small, c)
    }
}

/// A trie together with its type.
///
/// ```
/// use bekstaudi::codepointtrie::{CodePointTrieBuilder, TrieType, Typed, TypedCodePointTrie};
///
/// let mut builder = CodePointTrieBuilder::new(0u8, 9, TrieType::Fast);
/// builder.set_value(0x41, 1);
/// let trie = builder.build();
/// // A look-up in a typed trie does not test the type again.
/// let count = |text: &str| match trie.as_typed_ref() {
///     Typed::Fast(fast) => text.chars().filter(|c| fast.get(*c) == 1).count(),
///     Typed::Small(small) => text.chars().filter(|c| small.get(*c) == 1).count(),
/// };
/// assert_eq!(count("ABA"), 2);
/// ```
#[derive(Clone, Copy, Debug, PartialEq, Eq, Hash)]
pub enum Typed<F, S> {
    /// The trie is of the type `Fast`.
    Fast(F),
    /// The trie is of the type `Small`.
    Small(S),
}

/// The error of a conversion to a typed trie: the trie is of the other type.
#[derive(Clone, Copy, Debug, PartialEq, Eq, Hash)]
pub struct TypedCodePointTrieError;

impl<'trie, T: TrieValue> CodePointTrie<'trie, T> {
    /// Converts the trie into the typed trie of its type.
    #[must_use]
    #[inline]
    pub const fn to_typed(
        self,
    ) -> Typed<FastCodePointTrie<'trie, T>, SmallCodePointTrie<'trie, T>> {
        match self.header.trie_type {
            TrieType::Fast => Typed::Fast(FastCodePointTrie { inner: self }),
            TrieType::Small => Typed::Small(SmallCodePointTrie { inner: self }),
        }
    }

    /// Returns the typed trie of this trie's type. It borrows its index and its data from this
    /// trie.
    #[must_use]
    #[inline]
    pub fn as_typed_ref(&self) -> Typed<FastCodePointTrie<'_, T>, SmallCodePointTrie<'_, T>> {
        self.lent().to_typed()
    }

    /// Returns an equal trie that borrows its index and its data from this one.
    #[inline]
    pub(crate) fn lent(&self) -> CodePointTrie<'_, T> {
        CodePointTrie {
            header: self.header,
            index: self.index.as_slice().as_zerovec(),
            data: self.data.as_slice().as_zerovec(),
        }
    }
}

/// Converts a trie of the type `Fast`. A small trie is an error.
impl<'trie, T: TrieValue> TryFrom<CodePointTrie<'trie, T>> for FastCodePointTrie<'trie, T> {
    type Error = TypedCodePointTrieError;

    #[inline]
    fn try_from(trie: CodePointTrie<'trie, T>) -> Result<Self, TypedCodePointTrieError> {
        match trie.to_typed() {
            Typed::Fast(trie) => Ok(trie),
            Typed::Small(_) => Err(TypedCodePointTrieError),
        }
    }
}

/// Borrows a trie of the type `Fast`. A small trie is an error.
impl<'a, 'trie, T: TrieValue> TryFrom<&'a CodePointTrie<'trie, T>> for FastCodePointTrie<'a, T> {
    type Error = TypedCodePointTrieError;

    #[inline]
    fn try_from(trie: &'a CodePointTrie<'trie, T>) -> Result<Self, TypedCodePointTrieError> {
        match trie.as_typed_ref() {
            Typed::Fast(trie) => Ok(trie),
            Typed::Small(_) => Err(TypedCodePointTrieError),
        }
    }
}

/// Converts a trie of the type `Small`. A fast trie is an error.
impl<'trie, T: TrieValue> TryFrom<CodePointTrie<'trie, T>> for SmallCodePointTrie<'trie, T> {
    type Error = TypedCodePointTrieError;

    #[inline]
    fn try_from(trie: CodePointTrie<'trie, T>) -> Result<Self, TypedCodePointTrieError> {
        match trie.to_typed() {
            Typed::Fast(_) => Err(TypedCodePointTrieError),
            Typed::Small(trie) => Ok(trie),
        }
    }
}

/// Borrows a trie of the type `Small`. A fast trie is an error.
impl<'a, 'trie, T: TrieValue> TryFrom<&'a CodePointTrie<'trie, T>> for SmallCodePointTrie<'a, T> {
    type Error = TypedCodePointTrieError;

    #[inline]
    fn try_from(trie: &'a CodePointTrie<'trie, T>) -> Result<Self, TypedCodePointTrieError> {
        match trie.as_typed_ref() {
            Typed::Fast(_) => Err(TypedCodePointTrieError),
            Typed::Small(trie) => Ok(trie),
        }
    }
}

impl core::fmt::Display for TypedCodePointTrieError {
    #[inline]
    fn fmt(&self, f: &mut core::fmt::Formatter<'_>) -> core::fmt::Result {
        match self {
            TypedCodePointTrieError => f.write_str("the trie is of the other type"),
        }
    }
}

impl core::error::Error for TypedCodePointTrieError {}
