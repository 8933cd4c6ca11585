//! The values of a trie.

use crate::icu_zerovec::ule::AsULE;
use crate::support::prelude::*;
use core::fmt;

/// A value that a trie can store: a packed value that has a 32-bit number.
///
/// A user-defined type must satisfy two laws: [`try_from_u32`](Self::try_from_u32) gives each value
/// back from its number, and two values are equal exactly if their numbers are.
///
/// ```
/// use bekstaudi::codepointtrie::{CodePointTrieBuilder, TrieType, TrieValue};
/// use bekstaudi::zerovec::ule::AsULE;
///
/// // `trie_values!` declares such an enum with all of these impls.
/// /// Three of the general categories, with the numbers that ICU gives them.
/// #[derive(Clone, Copy, Debug, PartialEq, Eq)]
/// enum Category {
///     Unassigned = 0,
///     UppercaseLetter = 1,
///     LowercaseLetter = 2,
/// }
///
/// impl TrieValue for Category {
///     type TryFromU32Error = String;
///
///     fn to_u32(self) -> u32 {
///         self as u32
///     }
///
///     fn try_from_u32(i: u32) -> Result<Self, String> {
///         match i {
///             0 => Ok(Category::Unassigned),
///             1 => Ok(Category::UppercaseLetter),
///             2 => Ok(Category::LowercaseLetter),
///             _ => Err(format!("no category has the number {i}")),
///         }
///     }
/// }
///
/// impl AsULE for Category {
///     const WIDTH: usize = 1;
///
///     fn to_unaligned(self) -> [u8; 4] {
///         [self as u8, 0, 0, 0]
///     }
///
///     fn from_unaligned(bytes: &[u8]) -> Option<Self> {
///         Category::try_from_u32(u32::from(bytes[0])).ok()
///     }
/// }
///
/// let none = Category::Unassigned;
/// let mut builder = CodePointTrieBuilder::new(none, none, TrieType::Fast);
/// builder.set_range_value(0x41..=0x5A, Category::UppercaseLetter);
/// builder.set_range_value(0x61..=0x7A, Category::LowercaseLetter);
/// let trie = builder.build();
/// assert_eq!(trie.get('A'), Category::UppercaseLetter);
/// assert_eq!(trie.get_set_for_value(Category::LowercaseLetter).size(), 26);
/// ```
pub trait TrieValue: AsULE + Eq + 'static {
    /// The error for a number that no value has.
    type TryFromU32Error: fmt::Display;

    /// Returns the number of the value.
    fn to_u32(self) -> u32;

    /// Returns the value with the number `i`.
    ///
    /// # Errors
    /// Returns `TryFromU32Error` if no value has this number.
    fn try_from_u32(i: u32) -> Result<Self, Self::TryFromU32Error>;
}

/// The error of [`TrieValue::try_from_u32`] for the integer types and `char`: no value of the type
/// has this number.
#[derive(Clone, Copy, Debug, PartialEq, Eq, Hash)]
pub struct NotAValue;

impl TrieValue for u8 {
    type TryFromU32Error = NotAValue;

    #[inline]
    fn to_u32(self) -> u32 {
        u32::from(self)
    }

    #[inline]
    fn try_from_u32(i: u32) -> Result<Self, NotAValue> {
        u8::try_from(i).map_err(|_| NotAValue)
    }
}

impl TrieValue for u16 {
    type TryFromU32Error = NotAValue;

    #[inline]
    fn to_u32(self) -> u32 {
        u32::from(self)
    }

    #[inline]
    fn try_from_u32(i: u32) -> Result<Self, NotAValue> {
        u16::try_from(i).map_err(|_| NotAValue)
    }
}

impl TrieValue for u32 {
    type TryFromU32Error = NotAValue;

    #[inline]
    fn to_u32(self) -> u32 {
        self
    }

    #[inline]
    fn try_from_u32(i: u32) -> Result<Self, NotAValue> {
        Ok(i)
    }
}

impl TrieValue for i8 {
    type TryFromU32Error = NotAValue;

    #[inline]
    fn to_u32(self) -> u32 {
        i32::from(self).cast_unsigned()
    }

    #[inline]
    fn try_from_u32(i: u32) -> Result<Self, NotAValue> {
        i8::try_from(i.cast_signed()).map_err(|_| NotAValue)
    }
}

impl TrieValue for i16 {
    type TryFromU32Error = NotAValue;

    #[inline]
    fn to_u32(self) -> u32 {
        i32::from(self).cast_unsigned()
    }

    #[inline]
    fn try_from_u32(i: u32) -> Result<Self, NotAValue> {
        i16::try_from(i.cast_signed()).map_err(|_| NotAValue)
    }
}

impl TrieValue for i32 {
    type TryFromU32Error = NotAValue;

    #[inline]
    fn to_u32(self) -> u32 {
        self.cast_unsigned()
    }

    #[inline]
    fn try_from_u32(i: u32) -> Result<Self, NotAValue> {
        Ok(i.cast_signed())
    }
}

impl TrieValue for char {
    type TryFromU32Error = NotAValue;

    #[inline]
    fn to_u32(self) -> u32 {
        u32::from(self)
    }

    #[inline]
    fn try_from_u32(i: u32) -> Result<Self, NotAValue> {
        char::from_u32(i).ok_or(NotAValue)
    }
}

impl core::fmt::Display for NotAValue {
    #[inline]
    fn fmt(&self, f: &mut core::fmt::Formatter<'_>) -> core::fmt::Result {
        match self {
            NotAValue => f.write_str("the number is no value of the type"),
        }
    }
}

impl core::error::Error for NotAValue {}
