//! Values of code point tries along texts.
//!
//! - `text`: all public functions, as in `icu_collections::codepointtrie::text`
//! - `values`: [`ValuesOf`](values::ValuesOf), the value of each character of a text
//! - `indices`: [`ValueIndicesOf`](indices::ValueIndicesOf), the same with the byte offset of each
//!   character
//! - `find`: the first character whose value is accepted, and the longest prefix of accepted ones
//! - `found`: [`Found`](found::Found), a character, its byte offset and its value
//! - `utf16`: [`ValuesOfUtf16`](utf16::ValuesOfUtf16), the value of each code point of 16-bit units
//! - `utf8`: [`ValuesOfUtf8`](utf8::ValuesOfUtf8), the value of each character of bytes that may be
//!   ill-formed UTF-8
//! - `first`: the first character of a text with its value
//! - `copy`: the values of bytes that may be ill-formed UTF-8, copied to a buffer
//! - `copy_parts`: the loop of `copy`, over values from anywhere, for the crates that build on this
//!   one; [`Copied`](copy_parts::Copied), what it returns
//! - `part_values`: such values, and how the first of them is read
//! - `any_bytes`, `well_formed`: the two ways to read it
//! - `lookup`: a trie for looking up the values of many characters, for texts in UTF-8

use crate::support::prelude::*;
mod any_bytes;
mod copy;
pub mod copy_parts;
mod find;
mod first;
mod found;
mod indices;
mod lookup;
pub mod part_values;
pub mod text;
mod utf16;
mod utf8;
mod values;
mod well_formed;
