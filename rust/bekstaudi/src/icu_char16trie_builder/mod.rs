//! Builds unit tries: entries are added and become a trie in one list of units. ICU:
//! `UCharsTrieBuilder`.
//!
//!
//! - `builder`: [`Char16TrieBuilder`](builder::Char16TrieBuilder), the entries and their trie
//! - `sorted`: entries that are already in unit order
//! - `text`: the UTF-16 units of a text that is a key
//! - `error`: why an entry was rejected, or a trie could not be built
//!
//! A trie is written from its last unit to its first. What was written last is in front, and a jump
//! is the difference of two lengths:
//!
//! - `units`: the units of a trie, step by step
//! - `step`: the steps, and what each of them writes; `open` makes the steps of a node from its
//!   entries
//! - `entry`, `arms`: entries on their way down, and the entries of a branch grouped by their next
//!   unit
//! - `known`: nodes that were written, so that an equal node becomes a jump and is not written
//!   again
//! - `level`: one level of a trie; `write`: its numbers

use crate::support::prelude::*;
mod arms;
pub mod builder;
mod entry;
pub mod error;
mod known;
mod level;
mod open;
mod sorted;
mod step;
mod text;
mod units;
mod write;
