//! Vectors of small values that are stored as bytes and read in place.
//!
//! [`ZeroVec`] borrows or owns its bytes, and [`ZeroSlice`] is a view that borrows them. Both
//! represent a list of values. To read a data file, borrow its bytes: nothing is copied.
//! [`ZeroVec::parse_bytes`] validates all bytes before any value is read.
//!
//!
//! - `ule`: the trait of the values, [`AsULE`](ule::AsULE), and the error for invalid bytes
//! - `integers`, `code_point`: the types that implement it: integers, `char`,
//!   [`PotentialCodePoint`]
//! - `vec`, `slice`, `iter`: the vector, the view, and the iterator over their values
//! - `equality`: equality and hashing of vectors
//! - `memory`: the error for a failed allocation, which all crates above use, and the error for a
//!   list of writes that failed in the middle
//! - `cells`, `search`: the work on packed bytes
//! - `raw`: reads of a cell, each with a body for Rattle and one for rustc

use crate::support::prelude::*;
mod cells;
pub mod code_point;
mod equality;
mod integers;
pub mod iter;
pub mod memory;
pub mod raw;
mod search;
pub mod slice;
pub mod ule;
pub mod vec;

pub use code_point::{CODE_POINT_LIMIT, PotentialCodePoint};
pub use memory::MemoryError;
pub use slice::ZeroSlice;
pub use vec::ZeroVec;
