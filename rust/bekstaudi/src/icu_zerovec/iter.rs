//! The iterator over the values of a packed vector.

use crate::icu_zerovec::cells;
use crate::icu_zerovec::ule::AsULE;
use crate::support::prelude::*;
use core::fmt;
use core::marker::PhantomData;

/// An iterator over the values of a packed vector. `ZeroVec::iter` and `ZeroSlice::iter` return it.
///
/// It knows how many values are left.
#[derive(Clone)]
#[must_use = "iterators are lazy and do nothing unless consumed"]
pub struct Iter<'a, T: AsULE> {
    bytes: &'a [u8],
    of: PhantomData<fn(T) -> T>,
}

impl<'a, T: AsULE> Iter<'a, T> {
    /// Returns an iterator over bytes that have been validated.
    #[inline]
    pub(crate) fn from_packed(bytes: &'a [u8]) -> Self {
        Iter {
            bytes,
            of: PhantomData,
        }
    }
}

impl<'a, T: AsULE> Iterator for Iter<'a, T> {
    type Item = T;

    #[inline]
    fn next(&mut self) -> Option<T> {
        let (value, others) = cells::split_first(self.bytes)?;
        self.bytes = others;
        Some(value)
    }

    #[inline]
    fn size_hint(&self) -> (usize, Option<usize>) {
        let len = cells::len::<T>(self.bytes);
        (len, Some(len))
    }
}

impl<'a, T: AsULE> ExactSizeIterator for Iter<'a, T> {
    #[inline]
    fn len(&self) -> usize {
        cells::len::<T>(self.bytes)
    }
}

/// Formats the values that are left as a list, like a slice: `[1, 2]`.
impl<'a, T: AsULE + fmt::Debug> fmt::Debug for Iter<'a, T> {
    #[inline]
    fn fmt(&self, f: &mut fmt::Formatter<'_>) -> fmt::Result {
        f.debug_list()
            .entries(Iter::<T>::from_packed(self.bytes))
            .finish()
    }
}

impl<T: AsULE> DoubleEndedIterator for Iter<'_, T> {
    #[inline]
    fn next_back(&mut self) -> Option<T> {
        let place = self.bytes.len().checked_sub(T::WIDTH)?;
        let (others, last) = self.bytes.split_at(place);
        let value = T::from_unaligned(last)?;
        self.bytes = others;
        Some(value)
    }
}

impl<T: AsULE> core::iter::FusedIterator for Iter<'_, T> {}
