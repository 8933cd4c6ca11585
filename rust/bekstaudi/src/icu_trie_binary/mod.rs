//! Code point tries in ICU's binary form, which `ucptrie_toBinary` writes and
//! `ucptrie_openFromBinary` reads.
//!
//! - `binary`: reads tries that borrow the bytes of the form, and writes tries in the form
//! - `error`: why bytes are rejected, and why a trie cannot be written
//! - `header`, `write_header`: reads and writes the header before index and data
//! - `swapped`: reads tries in the other byte order
//! - `write`: writes the form

use crate::support::prelude::*;
pub mod binary;
mod error;
mod header;
mod swapped;
mod write;
mod write_header;
