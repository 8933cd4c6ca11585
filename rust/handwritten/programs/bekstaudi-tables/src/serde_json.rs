//! JSON: what Rattle's crate `serde_json` has.

pub use ::serde_json::{Error, Value, from_str};
