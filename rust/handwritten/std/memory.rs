//! Vectors and strings that report failed allocations, by Rust's own `try_reserve`.

#[cfg(feature = "alloc")]
use alloc::string::String;
#[cfg(feature = "alloc")]
use alloc::vec::Vec;

/// An allocation failed.
#[derive(Clone, Copy, Debug, PartialEq, Eq, Hash)]
pub struct AllocError;

impl core::fmt::Display for AllocError {
    fn fmt(&self, f: &mut core::fmt::Formatter<'_>) -> core::fmt::Result {
        f.write_str("no memory")
    }
}

impl core::error::Error for AllocError {}

/// An allocation for a value failed. The value is given back.
#[derive(Debug)]
pub struct AllocFailed<T>(pub T);

impl<T> core::fmt::Display for AllocFailed<T> {
    fn fmt(&self, f: &mut core::fmt::Formatter<'_>) -> core::fmt::Result {
        AllocError.fmt(f)
    }
}

impl<T: core::fmt::Debug> core::error::Error for AllocFailed<T> {}

impl<T> From<AllocFailed<T>> for AllocError {
    fn from(_failed: AllocFailed<T>) -> AllocError {
        AllocError
    }
}

/// The methods of a vector that allocate.
pub trait TryVec<T>: Sized {
    /// Returns a vector with capacity for `count` values.
    fn with_room(count: usize) -> Result<Self, AllocError>;

    /// Returns a vector of copies of these values.
    fn from_slice(values: &[T]) -> Result<Self, AllocError>
    where
        T: Clone;

    /// Returns a vector of `count` copies of a value.
    fn from_elem(value: T, count: usize) -> Result<Self, AllocError>
    where
        T: Clone;

    /// Reserves capacity for `more` values.
    fn try_room(&mut self, more: usize) -> Result<(), AllocError>;

    /// Reserves capacity for exactly `more` values.
    fn try_exact_room(&mut self, more: usize) -> Result<(), AllocError>;

    /// Appends a value, or gives it back.
    fn try_push(&mut self, value: T) -> Result<(), AllocFailed<T>>;

    /// Inserts a value at a position, or gives it back.
    fn try_insert(&mut self, place: usize, value: T) -> Result<(), AllocFailed<T>>;

    /// Appends copies of these values.
    fn try_extend_from_slice(&mut self, values: &[T]) -> Result<(), AllocError>
    where
        T: Clone;

    /// Truncates the vector to `count` values, or appends copies of one.
    fn try_resize(&mut self, count: usize, value: T) -> Result<(), AllocError>
    where
        T: Clone;
}

#[cfg(feature = "alloc")]
impl<T> TryVec<T> for Vec<T> {
    #[inline]
    fn with_room(count: usize) -> Result<Self, AllocError> {
        let mut made = Vec::new();
        made.try_exact_room(count)?;
        Ok(made)
    }

    #[inline]
    fn from_slice(values: &[T]) -> Result<Self, AllocError>
    where
        T: Clone,
    {
        let mut made = Vec::with_room(values.len())?;
        made.extend_from_slice(values);
        Ok(made)
    }

    #[inline]
    fn from_elem(value: T, count: usize) -> Result<Self, AllocError>
    where
        T: Clone,
    {
        let mut made = Vec::with_room(count)?;
        made.resize(count, value);
        Ok(made)
    }

    #[inline]
    fn try_room(&mut self, more: usize) -> Result<(), AllocError> {
        self.try_reserve(more).map_err(|_| AllocError)
    }

    #[inline]
    fn try_exact_room(&mut self, more: usize) -> Result<(), AllocError> {
        self.try_reserve_exact(more).map_err(|_| AllocError)
    }

    #[inline]
    fn try_push(&mut self, value: T) -> Result<(), AllocFailed<T>> {
        if self.len() == self.capacity() && self.try_reserve(1).is_err() {
            return Err(AllocFailed(value));
        }
        self.push(value);
        Ok(())
    }

    #[inline]
    fn try_insert(&mut self, place: usize, value: T) -> Result<(), AllocFailed<T>> {
        if self.try_reserve(1).is_err() {
            return Err(AllocFailed(value));
        }
        self.insert(place, value);
        Ok(())
    }

    #[inline]
    fn try_extend_from_slice(&mut self, values: &[T]) -> Result<(), AllocError>
    where
        T: Clone,
    {
        self.try_room(values.len())?;
        self.extend_from_slice(values);
        Ok(())
    }

    #[inline]
    fn try_resize(&mut self, count: usize, value: T) -> Result<(), AllocError>
    where
        T: Clone,
    {
        self.try_room(count.saturating_sub(self.len()))?;
        self.resize(count, value);
        Ok(())
    }
}

/// The methods of a string that allocate.
pub trait TryString: Sized {
    /// Returns a copy of the text.
    fn from_str(text: &str) -> Result<Self, AllocError>;

    /// Appends a character.
    fn try_push(&mut self, c: char) -> Result<(), AllocError>;

    /// Appends a text.
    fn try_push_str(&mut self, text: &str) -> Result<(), AllocError>;
}

/// Reserves capacity for one more character, and appends it.
#[cfg(feature = "alloc")]
#[cold]
#[inline(never)]
fn grow(text: &mut String, c: char) -> Result<(), AllocError> {
    text.try_reserve(4).map_err(|_| AllocError)?;
    text.push(c);
    Ok(())
}

#[cfg(feature = "alloc")]
impl TryString for String {
    #[inline(always)]
    fn from_str(text: &str) -> Result<Self, AllocError> {
        let mut made = String::new();
        if made.try_reserve_exact(text.len()).is_err() {
            return Err(AllocError);
        }
        made.push_str(text);
        Ok(made)
    }

    #[inline(always)]
    fn try_push(&mut self, c: char) -> Result<(), AllocError> {
        // One test for all characters: `push` then needs no test of its own.
        if self.capacity() - self.len() < 4 {
            return grow(self, c);
        }
        self.push(c);
        Ok(())
    }

    fn try_push_str(&mut self, text: &str) -> Result<(), AllocError> {
        self.try_reserve(text.len()).map_err(|_| AllocError)?;
        self.push_str(text);
        Ok(())
    }
}

/// A vector of copies of one value, or of these values.
macro_rules! try_vec {
    ($value:expr; $count:expr) => {
        <Vec<_> as $crate::support::memory::TryVec<_>>::from_elem($value, $count)
    };
    ($($value:expr),* $(,)?) => {
        <Vec<_> as $crate::support::memory::TryVec<_>>::from_slice(&[$($value),*])
    };
}
pub(crate) use try_vec;
