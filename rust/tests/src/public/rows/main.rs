//! Rows of calls and their results: examples of ICU, the Unicode Standard, the Rust crate and the
//! format's descriptions, errors and their texts, sizes, and random maps.
//!
//! The crates of tests under `crates` have the rows of calls whose allocations are counted or fail.

mod binary;
mod built_unit_tries;
mod error_texts;
#[cfg(feature = "json")]
mod json_values;
mod maps;
#[path = "../random/mod.rs"]
mod random;
mod sets;
#[cfg(feature = "toml")]
mod toml_tables;
mod unit_tries;
mod values;
