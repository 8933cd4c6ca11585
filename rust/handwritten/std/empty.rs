//! Vectors and strings without an allocator. Each allocation fails, so they are always empty.

use super::memory::{AllocError, AllocFailed, TryString, TryVec};
use core::marker::PhantomData;
use core::ops::{Deref, DerefMut, RangeBounds};

/// A vector that is always empty.
#[derive(Debug, PartialEq, Eq)]
pub struct Vec<T>(PhantomData<T>);

impl<T> Clone for Vec<T> {
    fn clone(&self) -> Self {
        Vec(PhantomData)
    }
}

impl<T> core::hash::Hash for Vec<T> {
    fn hash<H: core::hash::Hasher>(&self, state: &mut H) {
        state.write_usize(0);
    }
}

impl<T> Vec<T> {
    pub const fn new() -> Self {
        Vec(PhantomData)
    }

    pub const fn as_slice(&self) -> &[T] {
        &[]
    }

    pub const fn is_empty(&self) -> bool {
        true
    }

    pub fn push(&mut self, _: T) {
        unreachable!()
    }

    pub fn pop(&mut self) -> Option<T> {
        None
    }

    pub fn clear(&mut self) {}

    pub fn truncate(&mut self, _: usize) {}

    pub fn extend<I: Iterator<Item = T>>(&mut self, mut values: I) {
        assert!(values.next().is_none());
    }

    pub fn remove(&mut self, _: usize) -> T {
        unreachable!()
    }

    pub fn drain<R: RangeBounds<usize>>(&mut self, _: R) -> core::iter::Empty<T> {
        core::iter::empty()
    }
}

impl<T> Deref for Vec<T> {
    type Target = [T];

    fn deref(&self) -> &[T] {
        &[]
    }
}

impl<T> DerefMut for Vec<T> {
    fn deref_mut(&mut self) -> &mut [T] {
        &mut []
    }
}

impl<'a, T> IntoIterator for &'a Vec<T> {
    type Item = &'a T;
    type IntoIter = core::slice::Iter<'a, T>;

    fn into_iter(self) -> Self::IntoIter {
        [].iter()
    }
}

/// Succeeds if nothing has to be allocated.
fn allocate(count: usize) -> Result<(), AllocError> {
    if count == 0 { Ok(()) } else { Err(AllocError) }
}

impl<T> TryVec<T> for Vec<T> {
    fn with_room(count: usize) -> Result<Self, AllocError> {
        allocate(count).map(|()| Vec::new())
    }

    fn from_slice(values: &[T]) -> Result<Self, AllocError>
    where
        T: Clone,
    {
        Vec::with_room(values.len())
    }

    fn from_elem(_: T, count: usize) -> Result<Self, AllocError>
    where
        T: Clone,
    {
        Vec::with_room(count)
    }

    fn try_room(&mut self, more: usize) -> Result<(), AllocError> {
        allocate(more)
    }

    fn try_exact_room(&mut self, more: usize) -> Result<(), AllocError> {
        allocate(more)
    }

    fn try_push(&mut self, value: T) -> Result<(), AllocFailed<T>> {
        Err(AllocFailed(value))
    }

    fn try_insert(&mut self, _: usize, value: T) -> Result<(), AllocFailed<T>> {
        Err(AllocFailed(value))
    }

    fn try_extend_from_slice(&mut self, values: &[T]) -> Result<(), AllocError>
    where
        T: Clone,
    {
        allocate(values.len())
    }

    fn try_resize(&mut self, count: usize, _: T) -> Result<(), AllocError>
    where
        T: Clone,
    {
        allocate(count)
    }
}

/// A string that is always empty.
#[derive(Clone, Debug, PartialEq, Eq, PartialOrd, Ord)]
pub struct String;

impl String {
    pub const fn new() -> Self {
        String
    }

    pub fn as_str(&self) -> &str {
        ""
    }

    pub fn clear(&mut self) {}

    pub fn truncate(&mut self, _: usize) {}

    pub fn pop(&mut self) -> Option<char> {
        None
    }
}

impl Deref for String {
    type Target = str;

    fn deref(&self) -> &str {
        ""
    }
}

impl TryString for String {
    fn from_str(text: &str) -> Result<Self, AllocError> {
        allocate(text.len()).map(|()| String)
    }

    fn try_push(&mut self, c: char) -> Result<(), AllocError> {
        allocate(c.len_utf8())
    }

    fn try_push_str(&mut self, text: &str) -> Result<(), AllocError> {
        allocate(text.len())
    }
}
