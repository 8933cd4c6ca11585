//! Vectors of small values that are stored as bytes and read in place.
//!
//! ```
//! use bekstaudi::zerovec::ZeroVec;
//!
//! let numbers = ZeroVec::<u16>::parse_bytes(&[0x34, 0x12, 0xff, 0])?;
//! assert_eq!(numbers.get(0), Some(0x1234));
//! assert_eq!(numbers, [0x1234_u16, 255].into_iter().collect());
//! # Ok::<(), bekstaudi::zerovec::ule::UleError>(())
//! ```

pub use crate::constant::ConstCells;
#[doc(hidden)]
pub use crate::constant::{number_bounds, packed, table_bounds};
#[doc(hidden)]
pub use crate::constant_values::joined;
pub use crate::icu_zerovec::code_point::{CODE_POINT_LIMIT, PotentialCodePoint};
pub use crate::icu_zerovec::memory::{ApplyRefused, MemoryError};
pub use crate::icu_zerovec::slice::ZeroSlice;
pub use crate::icu_zerovec::vec::ZeroVec;
pub use crate::icu_zerovec::{iter, ule};
#[cfg(feature = "alloc")]
pub use crate::strings::VarZeroVec;

#[cfg(feature = "alloc")]
use crate::plain::plain;
use ule::AsULE;

/// Borrows what the vector borrows, and copies what it owns.
///
/// # Panics
/// Panics if an allocation fails; `try_clone` returns an error then.
impl<T: AsULE> Clone for ZeroVec<'_, T> {
    fn clone(&self) -> Self {
        match self.borrowed() {
            Some(vector) => vector,
            #[cfg(feature = "alloc")]
            None => plain(self.try_clone()),
            // Without an allocator, a vector that borrows nothing is empty.
            #[cfg(not(feature = "alloc"))]
            None => ZeroVec::new(),
        }
    }
}

#[cfg(feature = "alloc")]
impl<T: AsULE> ZeroVec<'_, T> {
    /// Returns the same vector, which then owns its bytes. If the vector already owns them, nothing
    /// is allocated or copied.
    ///
    /// # Panics
    /// Panics if an allocation fails; [`try_into_owned`](Self::try_into_owned) returns an error
    /// then.
    #[must_use]
    pub fn into_owned(self) -> ZeroVec<'static, T> {
        plain(self.try_into_owned())
    }
}

#[cfg(feature = "alloc")]
impl<'a, T: AsULE> ZeroVec<'a, T> {
    /// Returns a vector with copies of these values.
    ///
    /// # Panics
    /// Panics if an allocation fails; [`alloc_from_slice`](Self::alloc_from_slice) returns an error
    /// then.
    #[must_use]
    pub fn from_slice_or_alloc(values: &'a [T]) -> ZeroVec<'a, T> {
        plain(ZeroVec::alloc_from_slice(values))
    }
}

/// Copies the view.
impl<'a, T: AsULE> From<&ZeroSlice<'a, T>> for ZeroSlice<'a, T> {
    fn from(slice: &ZeroSlice<'a, T>) -> ZeroSlice<'a, T> {
        *slice
    }
}

/// Returns a view of the vector.
impl<'a, T: AsULE> From<&'a ZeroVec<'_, T>> for ZeroSlice<'a, T> {
    fn from(vector: &'a ZeroVec<'_, T>) -> ZeroSlice<'a, T> {
        vector.as_slice()
    }
}

impl<T: AsULE> Default for ZeroVec<'_, T> {
    fn default() -> Self {
        ZeroVec::from_packed(&[])
    }
}

#[cfg(feature = "alloc")]
/// # Panics
/// Panics if an allocation fails; [`ZeroVec::alloc_from_iter`] returns an error then.
impl<T: AsULE> FromIterator<T> for ZeroVec<'_, T> {
    fn from_iter<I: IntoIterator<Item = T>>(values: I) -> Self {
        plain(ZeroVec::alloc_from_iter(values.into_iter()))
    }
}
