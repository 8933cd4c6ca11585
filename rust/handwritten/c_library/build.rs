//! Sets the SONAME of the shared library, which says with which versions a program can run, and
//! links it with the C library.
use std::env::var;

fn main() {
    println!("cargo:rerun-if-changed=build.rs");
    let major = var("CARGO_PKG_VERSION_MAJOR").unwrap_or_default();
    let minor = var("CARGO_PKG_VERSION_MINOR").unwrap_or_default();
    let calls = if major == "0" { format!("0.{minor}") } else { major };
    println!("cargo:rustc-cdylib-link-arg=-Wl,-soname,libbekstaudi.so.{calls}");
    println!("cargo:rustc-cdylib-link-arg=-lc");
}
