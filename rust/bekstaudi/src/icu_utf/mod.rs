//! The first and the last character of a text in UTF-8 or UTF-16, also of ill-formed text.
//!
//! - `characters`: the first and the last character of bytes that may be ill-formed UTF-8
//! - `first_utf8`: the same by the size that the first byte gives, and the size of an ill-formed part
//! - `places`: the first character of well-formed UTF-8, whose trail bytes are not tested
//! - `first_utf16`: the first code point of 16-bit units

use crate::support::prelude::*;
pub mod characters;
pub mod first_utf16;
pub mod first_utf8;
pub mod places;
