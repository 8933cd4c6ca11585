//! The program ucptab: crates/ucptab without its proofs, over `bekstaudi-tables`.
#![forbid(unsafe_code)]
#![allow(unused_imports)] // Each module imports the same names of `host` and `support`.

use bekstaudi_tables::{host, ledger, support, ucptab_table};

#[allow(unused_variables)]
mod ucptab;

fn main() -> std::process::ExitCode {
    ucptab::main(host::HostRuntime)
}
