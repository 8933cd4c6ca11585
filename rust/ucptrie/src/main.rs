//! The program ucptrie: crates/ucptrie and crates/ucptrie_inputs without their proofs, over `bekstaudi`,
//! `bekstaudi-tables` and `clap`.
#![forbid(unsafe_code)]
// Each module imports the same names of `host` and `support`. What the proved sources have in another
// form than clippy asks for is allowed.
#![allow(
    unused_imports,
    clippy::write_with_newline,
    clippy::collapsible_if,
    clippy::manual_range_contains,
    clippy::manual_swap,
    clippy::manual_contains,
    clippy::manual_is_multiple_of,
    clippy::manual_ok_err,
    clippy::assign_op_pattern,
    clippy::explicit_auto_deref
)]

use bekstaudi_tables::{
    host, support, ucd_files, ucptab_table, ucptrie_forms, ucptrie_names, ucptrie_readers,
    ucptrie_sets, ucptrie_tables, ucptrie_words,
};

#[allow(dead_code)]
mod clap;
#[allow(unused_variables)]
mod ucptrie;
#[allow(unused_variables)]
mod ucptrie_inputs;

fn main() -> std::process::ExitCode {
    ucptrie::main(host::HostRuntime)
}
