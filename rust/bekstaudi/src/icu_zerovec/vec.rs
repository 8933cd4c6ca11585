//! Vectors of packed values that borrow or own their bytes.

use crate::icu_zerovec::iter::Iter;
use crate::icu_zerovec::memory::MemoryError;
use crate::icu_zerovec::slice::ZeroSlice;
use crate::icu_zerovec::ule::{AsULE, UleError};
use crate::icu_zerovec::{cells, search};
use crate::support::prelude::*;
use core::fmt;
use core::marker::PhantomData;

/// Bytes that are borrowed or owned. Both variants have the address and the length of the bytes at
/// the same offsets, so reading does not branch on the variant.
enum Store<'a> {
    Borrowed(&'a [u8]),
    Owned(Vec<u8>),
}

impl<'a> Store<'a> {
    /// Returns the bytes.
    #[inline(always)]
    const fn bytes(&self) -> &[u8] {
        match self {
            Store::Borrowed(bytes) => bytes,
            Store::Owned(bytes) => bytes.as_slice(),
        }
    }
}

/// A vector of values that are stored as bytes, which it borrows or owns.
///
/// ```
/// use bekstaudi::zerovec::{ZeroVec, ule::UleError};
///
/// let points = ZeroVec::<char>::parse_bytes(&[0x41, 0, 0, 0, 0xF6, 1])?;
/// assert_eq!(points.first(), Some('A'));
/// assert_eq!(points.get(1), Some('\u{1F600}'));
/// // 0xD800 is a surrogate.
/// let error = ZeroVec::<char>::parse_bytes(&[0x41, 0, 0, 0, 0xD8, 0]);
/// assert_eq!(error, Err(UleError::Cell(1)));
/// # Ok::<(), Box<dyn std::error::Error>>(())
/// ```
///
/// Two vectors are equal if and only if their lists of values are equal. Equal vectors have equal
/// hashes. Whether a vector borrows or owns its bytes makes no difference.
pub struct ZeroVec<'a, T: AsULE> {
    store: Store<'a>,
    of: PhantomData<fn(T) -> T>,
}

/// Constructors and copies.
impl<'a, T: AsULE> ZeroVec<'a, T> {
    /// Returns the vector with these bytes, which it borrows: `ZeroVec::<u16>::parse_bytes(&[1,
    /// 2])` has the single value 0x0201.
    ///
    /// # Errors
    /// - `UleError::Length` if the number of bytes is not a multiple of the width of a value.
    /// - `UleError::Cell` otherwise, with the index of the first cell that is not a value.
    #[inline]
    pub fn parse_bytes(bytes: &'a [u8]) -> Result<Self, UleError> {
        cells::test::<T>(bytes)?;
        Ok(ZeroVec::from_packed(bytes))
    }

    /// Returns the vector with these bytes, which it takes over without copying them.
    ///
    /// # Errors
    /// - `UleError::Length` if the number of bytes is not a multiple of the width of a value.
    /// - `UleError::Cell` otherwise, with the index of the first cell that is not a value.
    ///
    /// The bytes are dropped on error.
    #[inline]
    pub fn parse_owned(bytes: Vec<u8>) -> Result<Self, UleError> {
        cells::test::<T>(bytes.as_slice())?;
        Ok(ZeroVec {
            store: Store::Owned(bytes),
            of: PhantomData,
        })
    }

    /// Returns the vector with bytes that have been validated, which it borrows.
    #[inline]
    #[must_use]
    pub const fn from_packed(bytes: &'a [u8]) -> Self {
        ZeroVec {
            store: Store::Borrowed(bytes),
            of: PhantomData,
        }
    }

    /// Returns a vector with these values that owns its bytes.
    ///
    /// ```
    /// use bekstaudi::zerovec::ZeroVec;
    ///
    /// let numbers = ZeroVec::<u16>::alloc_from_slice(&[0x1234, 255])?;
    /// assert_eq!(numbers.as_bytes(), [0x34, 0x12, 0xFF, 0]);
    /// # Ok::<(), Box<dyn std::error::Error>>(())
    /// ```
    ///
    /// # Errors
    /// Returns `MemoryError` if an allocation fails.
    #[inline]
    pub fn alloc_from_slice(values: &[T]) -> Result<Self, MemoryError> {
        let vector = ZeroVec::alloc_from_iter(values.iter().copied())?;
        Ok(vector)
    }

    /// Returns a vector with the values that an iterator yields, in order, that owns its bytes.
    ///
    /// Each value is packed as it is yielded, so converting values needs no intermediate list. The
    /// iterator must be finite.
    ///
    /// ```
    /// use bekstaudi::zerovec::ZeroVec;
    ///
    /// let codes = ZeroVec::<u32>::alloc_from_iter("AZ".chars().map(u32::from))?;
    /// assert_eq!(codes.as_bytes(), [0x41, 0, 0, 0, 0x5A, 0, 0, 0]);
    /// # Ok::<(), Box<dyn std::error::Error>>(())
    /// ```
    ///
    /// # Errors
    /// Returns `MemoryError` if an allocation fails. The iterator is then dropped with its
    /// remaining items.
    #[inline]
    pub fn alloc_from_iter<I: Iterator<Item = T>>(values: I) -> Result<Self, MemoryError> {
        let bytes = cells::pack(values)?;
        Ok(ZeroVec {
            store: Store::Owned(bytes),
            of: PhantomData,
        })
    }

    /// Returns an equal vector that owns a copy of the bytes.
    ///
    /// # Errors
    /// Returns `MemoryError` if an allocation fails.
    #[inline]
    pub fn try_clone(&self) -> Result<ZeroVec<'static, T>, MemoryError> {
        Ok(ZeroVec {
            store: Store::Owned(Vec::from_slice(self.bytes())?),
            of: PhantomData,
        })
    }

    /// Returns the same vector, which then owns its bytes. If the vector already owns them, nothing
    /// is allocated or copied.
    ///
    /// # Errors
    /// Returns `MemoryError` if an allocation fails. The vector is then dropped; bytes that it
    /// borrowed are unchanged.
    #[inline]
    pub fn try_into_owned(self) -> Result<ZeroVec<'static, T>, MemoryError> {
        let ZeroVec { store, of: _ } = self;
        let bytes = match store {
            Store::Borrowed(bytes) => Vec::from_slice(bytes)?,
            Store::Owned(bytes) => bytes,
        };
        Ok(ZeroVec {
            store: Store::Owned(bytes),
            of: PhantomData,
        })
    }
}

/// Queries.
impl<'a, T: AsULE> ZeroVec<'a, T> {
    /// Returns the bytes.
    #[inline(always)]
    pub(crate) const fn bytes(&self) -> &[u8] {
        self.store.bytes()
    }

    /// Returns the number of values.
    #[inline]
    #[must_use]
    pub fn len(&self) -> usize {
        cells::len::<T>(self.bytes())
    }

    /// Returns true if there are no values.
    #[inline]
    #[must_use]
    pub fn is_empty(&self) -> bool {
        self.len() == 0
    }

    /// Returns the value at index `i`, counted from 0, or `None` if `i` is not less than the
    /// length.
    #[inline]
    #[must_use]
    pub fn get(&self, i: usize) -> Option<T> {
        cells::get(self.bytes(), i)
    }

    /// Returns the first value, or `None` if there are no values.
    #[inline]
    #[must_use]
    pub fn first(&self) -> Option<T> {
        self.get(0)
    }

    /// Returns the last value, or `None` if there are no values.
    #[inline]
    #[must_use]
    pub fn last(&self) -> Option<T> {
        let len = self.len();
        if len == 0 { None } else { self.get(len - 1) }
    }

    /// Returns an iterator over the values.
    #[inline]
    pub fn iter(&self) -> Iter<'_, T> {
        Iter::from_packed(self.bytes())
    }

    /// Searches for a value that is equal to `x` and returns its index. If several are equal, the
    /// index may be that of any of them.
    ///
    /// The values must be in ascending order. Otherwise the result is unspecified, but within the
    /// bounds of the vector.
    ///
    /// ```
    /// use bekstaudi::zerovec::ZeroVec;
    ///
    /// let numbers = ZeroVec::<u32>::alloc_from_slice(&[10, 20, 30])?;
    /// assert_eq!(numbers.binary_search(&20), Ok(1));
    /// assert_eq!(numbers.binary_search(&25), Err(2));
    /// # Ok::<(), Box<dyn std::error::Error>>(())
    /// ```
    ///
    /// # Errors
    /// Returns the index at which `x` could be inserted to keep the order if no value is equal to
    /// it.
    #[inline]
    pub fn binary_search(&self, x: &T) -> Result<usize, usize>
    where
        T: Ord,
    {
        search::binary_search(self.bytes(), x)
    }

    /// Returns the packed bytes of the values, in order, as they are stored.
    ///
    /// If each value of the type has one encoding, as for all types of this crate, these are the
    /// bytes that the values pack to. Otherwise they are some bytes that unpack to the values.
    #[inline]
    #[must_use]
    pub const fn as_bytes(&self) -> &[u8] {
        self.store.bytes()
    }

    /// Returns a view of the vector.
    #[inline]
    #[must_use]
    pub const fn as_slice(&self) -> ZeroSlice<'_, T> {
        ZeroSlice::from_packed(self.bytes())
    }
}

/// Conversions.
impl<'a, T: AsULE> ZeroVec<'a, T> {
    /// Returns the same bytes as a vector of another type, which must have the same width. The
    /// bytes stay borrowed or owned, and none are copied.
    ///
    /// Converting `char` to `PotentialCodePoint` always succeeds; the other direction depends on
    /// the cells.
    ///
    /// # Errors
    /// Returns `UleError::Cell` with the index of the first cell that is not a value of the other
    /// type. The vector is then dropped.
    #[inline]
    pub(crate) fn try_into_converted<P: AsULE>(self) -> Result<ZeroVec<'a, P>, UleError> {
        let ZeroVec { store, of: _ } = self;
        cells::test::<P>(store.bytes())?;
        Ok(ZeroVec {
            store,
            of: PhantomData,
        })
    }
}

/// Formats the values as a list, like a slice: `[1, 2]`.
impl<'a, T: AsULE + fmt::Debug> fmt::Debug for ZeroVec<'a, T> {
    #[inline]
    fn fmt(&self, f: &mut fmt::Formatter<'_>) -> fmt::Result {
        f.debug_list().entries(self.iter()).finish()
    }
}

impl<'a, T: AsULE> ZeroVec<'a, T> {
    /// Returns the same vector if it borrows its bytes, otherwise `None`.
    pub(crate) const fn borrowed(&self) -> Option<ZeroVec<'a, T>> {
        match self.store {
            Store::Borrowed(bytes) => Some(ZeroVec::from_packed(bytes)),
            Store::Owned(_) => None,
        }
    }
}
