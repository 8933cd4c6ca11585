//! Sets of code points in ICU's serialized form, which `uset_serialize` writes and
//! `uset_getSerializedSet` reads.
//!
//! - `serialized`: writing and reading the form; `target`: writing units into a caller's slice
//! - `lent_ends`: the boundaries in serialized units, read in place
//! - `error`: errors of writing and reading

use crate::support::prelude::*;
mod error;
mod lent_ends;
pub mod serialized;
mod target;
