//! Code point tries as JSON and as TOML, and the trie of the planes.
//!
//! A program that only looks up values needs none of this. So it is a separate crate on top of
//! `icu_trie`, and uses only its public functions.
//!
//! - `json`: reads and writes tries as JSON
//! - `planes`: the trie that maps each code point to the number of its plane
//! - `trie_toml`: reads tries from TOML

use crate::support::prelude::*;
pub mod json;
pub mod planes;
pub mod trie_toml;
