//! What Rattle's std has and Rust's has not: vectors, strings and maps that report failed
//! allocations.

#[allow(dead_code)] // Only the library uses it.
#[cfg(not(feature = "alloc"))]
mod empty;
#[cfg(feature = "alloc")]
mod maps;
#[cfg_attr(not(feature = "alloc"), allow(dead_code))]
pub mod memory;

#[cfg(feature = "alloc")]
pub use maps::{BTreeMap, HashMap};
/// The entries of [`BTreeMap`].
#[cfg(feature = "alloc")]
pub mod btree_map {
    pub use super::maps::Entry;
}
pub use memory::{AllocError, AllocFailed};

/// A JSON value. `serde_json` allocates for its objects, and ends the program if that fails.
#[cfg(feature = "json")]
macro_rules! try_json {
    ($($part:tt)*) => { Ok::<serde_json::Value, crate::support::AllocError>(serde_json::json!($($part)*)) };
}
#[cfg(feature = "json")]
pub(crate) use try_json;

/// What each module of the proved source imports.
pub mod prelude {
    #[cfg(not(feature = "alloc"))]
    pub use super::empty::{String, Vec};
    pub(crate) use super::memory::try_vec;
    pub use super::memory::{TryString, TryVec};
    #[cfg(feature = "alloc")]
    pub use alloc::string::String;
    #[cfg(feature = "alloc")]
    pub use alloc::vec::Vec;
}
