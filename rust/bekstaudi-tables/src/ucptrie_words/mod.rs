//! Word lists as unit tries: lines `KEY;VALUE` become a trie that ICU's `UCharsTrie` reads, and the
//! entries of a trie become lines.
//!
//! - `line`: what one line says
//! - `read`: what all lines say, as the entries of a builder
//! - `built`: the trie of a word list, and the trie that a file of units has
//! - `written`: a trie in one of the forms, as the bytes of a file
//! - `rows`: the entries of a trie, in lines
//! - `source`: the units as source in C and in Rust; `static_source`: as a static trie in Rust
//! - `error`: what is wrong with a line, and why there is no trie or no text

use crate::host::*;
use crate::support::prelude::*;
pub mod built;
pub mod error;
pub mod line;
pub mod read;
mod rows;
mod source;
mod static_source;
pub mod written;
