//! Functions that panic if an allocation fails, over those that return an error.

pub use crate::icu_trie::iterator_utils;

#[cfg(feature = "alloc")]
/// Returns the value of a result. Panics on an error, which is a failed allocation, as Rust's own
/// collections do.
#[inline]
pub(crate) fn plain<T, E: core::fmt::Display>(answer: Result<T, E>) -> T {
    match answer {
        Ok(value) => value,
        Err(error) => refused(&error),
    }
}

#[cfg(feature = "alloc")]
#[cold]
#[expect(clippy::panic)] // As Rust's own collections.
fn refused(error: &dyn core::fmt::Display) -> ! {
    panic!("bekstaudi: {error}")
}

#[cfg(feature = "alloc")]
/// Methods that return nothing, each over its `try_` form.
macro_rules! plain_calls {
    ($($(#[$docs:meta])* $name:ident = $tried:ident($argument:ident: $of:ty);)*) => {
        $(
            $(#[$docs])*
            ///
            /// # Panics
            #[doc = concat!("Panics if an allocation fails; [`", stringify!($tried), "`](Self::",
                stringify!($tried), ") returns an error then.")]
            #[inline]
            pub fn $name(&mut self, $argument: $of) {
                crate::plain::plain(self.$tried($argument));
            }
        )*
    };
}
#[cfg(feature = "alloc")]
pub(crate) use plain_calls;

#[cfg(feature = "alloc")]
/// A clone over `try_clone`, which panics if an allocation fails.
macro_rules! plain_clone {
    ($($name:ty;)*) => {
        $(
            /// # Panics
            /// Panics if an allocation fails; `try_clone` returns an error then.
            impl Clone for $name {
                fn clone(&self) -> Self {
                    crate::plain::plain(self.try_clone())
                }
            }
        )*
    };
}
#[cfg(feature = "alloc")]
pub(crate) use plain_clone;

/// Iterators that return `None` forever once they have returned it.
macro_rules! fused {
    ($(<$($life:lifetime),* $(, $of:ident: $bound:path)*> $name:ty;)*) => {
        $(impl<$($life),* $(, $of: $bound)*> core::iter::FusedIterator for $name {})*
    };
}
pub(crate) use fused;
