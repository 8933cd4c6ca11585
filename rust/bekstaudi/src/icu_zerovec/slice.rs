//! Views of packed vectors, with the same queries.

use crate::icu_zerovec::iter::Iter;
use crate::icu_zerovec::ule::AsULE;
use crate::icu_zerovec::vec::ZeroVec;
use crate::icu_zerovec::{cells, search};
use crate::support::AllocError;
use crate::support::prelude::*;
use core::fmt;
use core::hash::{Hash, Hasher};
use core::marker::PhantomData;

/// A view of a packed vector, with the queries of [`ZeroVec`]. It is `Copy`, like `&[T]`.
///
/// ```
/// use bekstaudi::zerovec::ZeroVec;
///
/// let numbers = ZeroVec::<u16>::parse_bytes(&[1, 0, 2, 0])?;
/// let view = numbers.as_slice();
/// assert_eq!(view.last(), Some(2));
/// assert_eq!(view.as_zerovec(), numbers);
/// # Ok::<(), Box<dyn std::error::Error>>(())
/// ```
///
/// Two views are equal if and only if their lists of values are equal. Equal views have equal
/// hashes.
pub struct ZeroSlice<'a, T: AsULE> {
    bytes: &'a [u8],
    of: PhantomData<fn(T) -> T>,
}

impl<'a, T: AsULE> Clone for ZeroSlice<'a, T> {
    #[inline]
    fn clone(&self) -> ZeroSlice<'a, T> {
        *self
    }
}

impl<'a, T: AsULE> Copy for ZeroSlice<'a, T> {}

impl<'a, T: AsULE> ZeroSlice<'a, T> {
    /// Returns a view of bytes that have been validated.
    #[inline]
    pub(crate) const fn from_packed(bytes: &'a [u8]) -> Self {
        ZeroSlice {
            bytes,
            of: PhantomData,
        }
    }

    /// Returns the number of values.
    #[inline]
    #[must_use]
    pub fn len(&self) -> usize {
        cells::len::<T>(self.bytes)
    }

    /// Returns true if there are no values.
    #[inline]
    #[must_use]
    pub fn is_empty(&self) -> bool {
        self.len() == 0
    }

    /// Returns the value at index `i`, counted from 0, or `None` if `i` is not less than the
    /// length.
    #[inline]
    #[must_use]
    pub fn get(&self, i: usize) -> Option<T> {
        cells::get(self.bytes, i)
    }

    /// Returns the value at index `i`, counted from 0, which must be less than the length. Use it
    /// if the caller has already tested the index.
    #[inline]
    pub(crate) fn at(&self, i: usize) -> T {
        cells::at(self.bytes, i)
    }

    /// Returns the value at index `i` if `i` is less than `end`, and otherwise `None`. `end` must be at
    /// most the length. One test finds out both whether `i` is below `end` and whether there is a value.
    #[inline(always)]
    pub(crate) fn get_below(&self, end: usize, i: usize) -> Option<T> {
        cells::get_below(self.bytes, end, i)
    }

    /// Returns what [`get_below`](Self::get_below) returns, for an index that is usually less than `end`:
    /// that path comes first in machine code.
    #[inline(always)]
    pub(crate) fn get_likely_below(&self, end: usize, i: usize) -> Option<T> {
        cells::get_likely_below(self.bytes, end, i)
    }

    /// Returns the value at index `i`, or `None` if `i` is not less than the length. If `is_inside` is
    /// true, `i` must be less than the length; where a proof takes the place of tests, none is made then.
    #[inline(always)]
    pub(crate) fn get_known(&self, i: usize, is_inside: bool) -> Option<T> {
        cells::get_known(self.bytes, i, is_inside)
    }

    /// Returns a view of the first `end` values. `end` must be at most the length.
    #[inline(always)]
    pub(crate) fn prefix(&self, end: usize) -> ZeroSlice<'a, T> {
        ZeroSlice::from_packed(cells::prefix::<T>(self.bytes, end))
    }

    /// Returns the first value, or `None` if there are no values.
    #[inline]
    #[must_use]
    pub fn first(&self) -> Option<T> {
        self.get(0)
    }

    /// Returns the last value, or `None` if there are no values.
    #[inline]
    #[must_use]
    pub fn last(&self) -> Option<T> {
        let len = self.len();
        if len == 0 { None } else { self.get(len - 1) }
    }

    /// Returns an iterator over the values. It borrows the bytes and not the view, so it may
    /// outlive the view.
    #[inline]
    pub fn iter(&self) -> Iter<'a, T> {
        Iter::from_packed(self.bytes)
    }

    /// Searches for a value that is equal to `x` and returns its index. If several are equal, the
    /// index may be that of any of them.
    ///
    /// The values must be in ascending order. Otherwise the result is unspecified, but within the
    /// bounds of the view.
    ///
    /// # Errors
    /// Returns the index at which `x` could be inserted to keep the order if no value is equal to
    /// it.
    #[inline]
    pub fn binary_search(&self, x: &T) -> Result<usize, usize>
    where
        T: Ord,
    {
        search::binary_search(self.bytes, x)
    }

    /// Returns the packed bytes of the values, in order.
    ///
    /// If each value of the type has one encoding, as for all types of this crate, these are the
    /// bytes that the values pack to. Otherwise they are some bytes that unpack to the values.
    #[inline]
    #[must_use]
    pub const fn as_bytes(&self) -> &'a [u8] {
        self.bytes
    }

    /// Returns a vector with the same values that borrows the bytes.
    #[inline]
    #[must_use]
    pub const fn as_zerovec(self) -> ZeroVec<'a, T> {
        ZeroVec::from_packed(self.bytes)
    }
}

impl<'a, T: AsULE> PartialEq for ZeroSlice<'a, T> {
    #[inline]
    fn eq(&self, other: &Self) -> bool {
        cells::same::<T>(self.bytes, other.bytes)
    }
}

impl<'a, T: AsULE> Eq for ZeroSlice<'a, T> {}

impl<'a, T: AsULE> Hash for ZeroSlice<'a, T> {
    #[inline]
    fn hash<H: Hasher>(&self, state: &mut H) {
        cells::feed::<T, H>(self.bytes, state);
    }
}

/// Formats the values as a list, like a slice: `[1, 2]`.
impl<'a, T: AsULE + fmt::Debug> fmt::Debug for ZeroSlice<'a, T> {
    #[inline]
    fn fmt(&self, f: &mut fmt::Formatter<'_>) -> fmt::Result {
        f.debug_list().entries(self.iter()).finish()
    }
}
