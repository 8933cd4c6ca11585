//! The units of a trie in Rust as a static trie of the crate `bekstaudi`.

use crate::host::*;
use crate::support::AllocError;
use crate::support::prelude::*;
use crate::ucptab_table::pattern::Number::Decimal;
use crate::ucptab_table::pattern::{push_named, push_pattern};

/// How many bytes a line has.
const BYTES_IN_LINE: usize = 32;

/// The first line. `%` is replaced by the number of units and of bytes.
const TITLE: &str = "// Made by ucptrie: the units of a UCharsTrie. Units: %, % bytes.\n";

/// What precedes the bytes. `@` is replaced by the name in capitals. A byte string takes the
/// compiler no time, but an array of units takes it seconds.
const HEAD: &str = "\
/// The unit trie `@`.
#[allow(dead_code)]
#[rustfmt::skip]
pub static @: bekstaudi::char16trie::Char16Trie<'static> =
    bekstaudi::char16trie::Char16Trie::from_static(bekstaudi::zerovec::ZeroSlice::from_static(b\"";

/// Appends the first line of a trie with so many bytes.
fn push_title(text: &mut String, size: usize) -> Result<(), AllocError> {
    push_pattern(text, TITLE, "", &[Decimal(size / 2), Decimal(size)])
}

/// Returns a text with its ASCII letters in capitals.
fn capitals(text: &str) -> Result<String, AllocError> {
    let mut capitals = String::new();
    capitals.try_push_str(text)?;
    capitals.make_ascii_uppercase();
    Ok(capitals)
}

/// Appends what precedes the bytes of a trie with this name.
fn push_head(text: &mut String, name: &str) -> Result<(), AllocError> {
    let capitals = capitals(name)?;
    push_named(text, HEAD, capitals.as_str())
}

/// Returns whether a byte is in a byte string as itself: whether it is a graphic ASCII character,
/// but no digit, `"` or `\`. A digit after `\0` would look like a number in octal.
fn is_plain(byte: u8) -> bool {
    (0x21..=0x7e).contains(&byte) && !byte.is_ascii_digit() && byte != b'"' && byte != b'\\'
}

/// Appends a byte of a byte string: NUL as `\0`, a plain byte as itself, and any other one as `\x`
/// and two hexadecimal digits.
fn push_escaped(text: &mut String, byte: u8) -> Result<(), AllocError> {
    if byte == 0 {
        text.try_push_str("\\0")
    } else if is_plain(byte) {
        text.try_push(char::from(byte))
    } else {
        write!(text, "\\x{byte:02x}")
    }
}

/// Appends what precedes the byte `i`: a `\` and a line end before each 32nd.
fn push_gap(text: &mut String, i: usize) -> Result<(), AllocError> {
    if i % BYTES_IN_LINE == 0 {
        text.try_push_str("\\\n")?;
    }
    Ok(())
}

/// Appends the byte `i` of a byte string, after its line end.
fn push_byte(text: &mut String, i: usize, byte: u8) -> Result<(), AllocError> {
    push_gap(text, i)?;
    push_escaped(text, byte)
}

/// Appends the bytes of a byte string, in lines.
fn push_bytes(text: &mut String, bytes: &[u8]) -> Result<(), AllocError> {
    for (i, byte) in bytes.iter().enumerate() {
        push_byte(text, i, *byte)?;
    }
    Ok(())
}

/// Returns the units in Rust, two bytes each, the low byte first: a static trie, whose name is this
/// one in capitals.
pub(crate) fn static_text(bytes: &[u8], name: &str) -> Result<String, AllocError> {
    let mut text = String::new();
    push_title(&mut text, bytes.len())?;
    push_head(&mut text, name)?;
    push_bytes(&mut text, bytes)?;
    text.try_push_str("\"));\n")?;
    Ok(text)
}
