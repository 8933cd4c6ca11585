//! The format of ICU's code point tries, for an index and data that are stored in any way.
//!
//! - `header`: the header of a trie and its type
//! - `value`: the values that a trie can store, [`TrieValue`](value::TrieValue)
//! - `cells`: access to index and data cell by cell, with a count of the reads
//! - `lookup`: [`look_up`](lookup::look_up), and [`look_up_whole`](lookup::look_up_whole), which
//!   needs no bounds checks on the fast path
//! - `walk`: [`walk`](walk::walk), the range of equal values from a code point on, block by block
//! - `extend`: how far a value extends, block by block
//! - `coherent`: [`is_coherent`](coherent::is_coherent), which checks what the header says
//! - `range`: [`CodePointMapRange`](range::CodePointMapRange), the range that a walk returns
//! - `error`, `impl_const`: why parts are rejected; the constants of the format
//!
//! This crate leaves open how the cells are stored. The crate `icu_trie` has the trie over packed
//! vectors.

use crate::support::prelude::*;
pub mod cells;
pub mod coherent;
pub mod error;
mod extend;
pub mod header;
pub mod impl_const;
pub mod lookup;
pub mod range;
pub mod value;
pub mod walk;
