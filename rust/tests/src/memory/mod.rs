//! Tests of what contracts do not state: that functions succeed, computed values, examples from
//! other sources, texts, and failed allocations.
//!
//! A test whose name ends in `_refused` is about functions that allocate, one whose name ends in
//! `_quiet` about functions that do not. `refusals.rs` runs them. The last paragraph of a test's
//! comment starts with `Calls:` and lists the functions that it is about. `memory_tests.py` checks
//! that each public function is listed.

mod built_tries;
mod built_unit_tries;
mod cursors;
mod dictionaries;
mod frozen_sets;
#[cfg(feature = "json")]
mod json;
mod set_changes;
mod set_queries;
mod sets_made;
mod string_sets;
mod support;
mod texts;
mod trie_binary;
mod trie_reads;
#[cfg(feature = "toml")]
mod trie_toml;
mod tries;
mod vectors;
mod vectors_of_types;
