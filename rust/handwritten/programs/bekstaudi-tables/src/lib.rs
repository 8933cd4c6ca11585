//! What the programs ucptab and ucptrie share: crates/ucptab_table, and with the feature `ucptrie` also
//! crates/ucd_files, crates/ucptrie_tables, crates/ucptrie_forms, crates/ucptrie_names,
//! crates/ucptrie_readers, crates/ucptrie_sets and crates/ucptrie_words, without their proofs, over
//! `bekstaudi`. `host` and `support` have what Rattle's std has in another form.
#![deny(unsafe_code)]
// Each module imports the same names of `host` and `support`. What the proved sources have in another
// form than clippy asks for is allowed. A format has whole lines.
#![allow(
    unused_imports,
    clippy::len_without_is_empty,
    clippy::new_without_default,
    clippy::write_with_newline,
    clippy::collapsible_if,
    clippy::manual_range_contains,
    clippy::manual_swap,
    clippy::manual_contains,
    clippy::manual_is_multiple_of,
    clippy::manual_ok_err,
    clippy::assign_op_pattern,
    clippy::explicit_auto_deref
)]

extern crate alloc;

pub mod host;
pub mod ledger;
#[cfg(feature = "ucptrie")]
pub mod serde_json;
#[allow(dead_code, unused_macros)]
#[path = "../../bekstaudi/src/support/mod.rs"]
pub mod support;
#[cfg(feature = "ucptrie")]
pub mod toml;
#[cfg(feature = "ucptrie")]
#[allow(dead_code, unused_variables)]
pub mod ucd_files;
#[allow(dead_code, unused_variables)]
pub mod ucptab_table;
#[cfg(feature = "ucptrie")]
#[allow(dead_code, unused_variables)]
pub mod ucptrie_forms;
#[cfg(feature = "ucptrie")]
#[allow(dead_code, unused_variables)]
pub mod ucptrie_names;
#[cfg(feature = "ucptrie")]
#[allow(dead_code, unused_variables)]
pub mod ucptrie_readers;
#[cfg(feature = "ucptrie")]
#[allow(dead_code, unused_variables)]
pub mod ucptrie_sets;
#[cfg(feature = "ucptrie")]
#[allow(dead_code, unused_variables)]
pub mod ucptrie_tables;
#[cfg(feature = "ucptrie")]
#[allow(dead_code, unused_variables)]
pub mod ucptrie_words;
