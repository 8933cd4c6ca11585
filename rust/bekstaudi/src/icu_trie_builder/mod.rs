//! Builds code point tries: write to a map from code points, then build it into a trie (ICU4C's
//! `UMutableCPTrie`).
//!
//! - `writes`: one write, and the error of a list of writes
//! - `builder`: [`CodePointTrieBuilder`](builder::CodePointTrieBuilder), the map that is written to
//! - `amend`: reading the map, and making it from a trie
//! - `build`: building the map into a trie, [`build_from_writes`]
//! - `error`: why a trie could not be built
//!
//! The trie itself is built from numbers, one for each code point:
//!
//! - `map`: the map from which a trie is built, from code points to numbers
//! - `number_trie`: the whole build, from the numbers to header, index and data
//! - `data`: the data cells, and the offsets of the blocks
//! - `index`: the index, which gives each data block its offset
//! - `compaction`: finds blocks of cells among others, or appends them
//! - `lengths`: the lengths of blocks

use crate::support::prelude::*;
mod amend;
mod build;
pub mod builder;
mod compaction;
mod data;
pub mod error;
mod index;
mod lengths;
mod map;
mod number_trie;
pub mod writes;

pub use build::try_build_from_writes;
