//! A trie whose values are mapped to values of another type.

use crate::icu_trie::cptrie::CodePointTrie;
use crate::icu_trie_core::value::TrieValue;
use crate::icu_zerovec::ule::AsULE;
use crate::icu_zerovec::{MemoryError, ZeroSlice, ZeroVec};
use crate::support::prelude::*;
use crate::support::{AllocError, AllocFailed};
use core::error::Error;
use core::fmt;

/// The error of [`CodePointTrie::try_alloc_map_value_fallible`].
#[derive(Clone, Copy, Debug, PartialEq, Eq, Hash)]
#[non_exhaustive]
pub enum MapError<E> {
    /// The closure returned this error.
    Closure(E),
    /// An allocation failed.
    Memory,
}

/// Writes the closure's error as its own `Display` does, or `no memory`.
impl<E: fmt::Display> fmt::Display for MapError<E> {
    #[inline]
    fn fmt(&self, f: &mut fmt::Formatter<'_>) -> fmt::Result {
        match self {
            MapError::Closure(error) => error.fmt(f),
            MapError::Memory => f.write_str("no memory"),
        }
    }
}

impl<E: fmt::Debug + fmt::Display> Error for MapError<E> {}

impl<E> From<AllocError> for MapError<E> {
    #[inline]
    fn from(_error: AllocError) -> MapError<E> {
        MapError::Memory
    }
}

impl<T, E> From<AllocFailed<T>> for MapError<E> {
    #[inline]
    fn from(_error: AllocFailed<T>) -> MapError<E> {
        MapError::Memory
    }
}

impl<E> From<MemoryError> for MapError<E> {
    #[inline]
    fn from(_error: MemoryError) -> MapError<E> {
        MapError::Memory
    }
}

/// Returns the results of a closure for these values, in order. After the first error it is not
/// called again.
#[inline]
fn map_cells<T: AsULE, P, E, F: FnMut(T) -> Result<P, E>>(
    values: ZeroSlice<'_, T>,
    mut f: F,
) -> Result<Vec<P>, MapError<E>> {
    let mut answers = Vec::with_room(values.len())?;
    for value in values.iter() {
        match f(value) {
            Ok(answer) => answers.try_push(answer)?,
            Err(error) => return Err(MapError::Closure(error)),
        }
    }
    Ok(answers)
}

impl<'trie, T: TrieValue> CodePointTrie<'trie, T> {
    /// Returns a trie whose values are the results of `f` for the values of this one. Its index and
    /// trie type are the same.
    ///
    /// It calls `f` for the error value, for the null value, and then for each data cell in order.
    /// So it calls `f` for a value as often as the value occurs in the data. The header gets the
    /// number of the result for the null value, and the index is copied.
    ///
    /// The error value of the new trie is the result for the last cell. If the result of `f`
    /// depends only on its argument, this is also the result of the first call.
    ///
    /// ```
    /// use bekstaudi::codepointtrie::planes::get_planes_trie;
    /// use std::convert::Infallible;
    ///
    /// let planes = get_planes_trie();
    /// let next = planes.try_alloc_map_value_fallible(|x| Ok::<u16, Infallible>(u16::from(x) + 1))?;
    /// assert_eq!(next.get32(0x1F600), 2);
    /// # Ok::<(), Box<dyn std::error::Error>>(())
    /// ```
    ///
    /// # Errors
    /// Returns `Closure` with the first error that `f` returns, after which `f` is not called
    /// again, and `Memory` if an allocation fails. The trie is unchanged in both cases.
    pub fn try_alloc_map_value_fallible<P: TrieValue, E, F: FnMut(T) -> Result<P, E>>(
        &self,
        mut f: F,
    ) -> Result<CodePointTrie<'static, P>, MapError<E>> {
        let null_value = self.null_value();
        // The first call, so that the closure can reject the error value before it gets any other
        // one. The result is not stored: the error value of a trie is the last cell of its data.
        match f(self.error_value()) {
            Ok(_) => {}
            Err(error) => return Err(MapError::Closure(error)),
        }
        let null = match f(null_value) {
            Ok(null) => null,
            Err(error) => return Err(MapError::Closure(error)),
        };
        let values = map_cells(self.data.as_slice(), f)?;
        let data = ZeroVec::alloc_from_slice(&values)?;
        // Look-ups rely on this number of cells, which a type that breaks the laws could change.
        if data.len() != self.data.len() {
            unreachable!();
        }
        let index = self.index.try_clone()?;
        Ok(CodePointTrie::with_data(self.header, index, data, null))
    }
}
