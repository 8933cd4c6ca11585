//! A table as source in C for `bekstaudi.h`: the bytes of ICU's binary form.

use crate::host::*;
use crate::support::AllocError;
use crate::support::prelude::*;
use crate::ucptab_table::pattern::Number::Decimal;
use crate::ucptab_table::pattern::{push_cell, push_pattern};
use crate::ucptrie_tables::source::type_name;
use crate::ucptrie_tables::table::Table;

/// The first line. `@` is replaced by the type of the trie, and `%` by the bits of a value and by
/// the number of bytes.
const TITLE: &str = "\
// Made by ucptrie: a @ code point trie, with values of % bits, in % bytes.
";

/// Appends the first line of a trie of this type, with values of so many bits and so many bytes.
fn push_title(text: &mut String, kind: &str, bits: u32, size: usize) -> Result<(), AllocError> {
    push_pattern(text, TITLE, kind, &[Decimal(bits as usize), Decimal(size)])
}

/// What precedes the bytes. `@` is replaced by the name, and `%` by their number. `bks_open` takes
/// bytes at any address; at a multiple of four ICU's `ucptrie_openFromBinary` takes them too.
const HEAD: &str = "
#include <bekstaudi.h>

// The trie in ICU's binary form.
__attribute__((aligned(4))) static const unsigned char @_table[%]={
";

/// Appends what precedes so many bytes.
fn push_head(text: &mut String, name: &str, size: usize) -> Result<(), AllocError> {
    push_pattern(text, HEAD, name, &[Decimal(size)])
}

/// Appends bytes as the cells of an array.
fn push_bytes(text: &mut String, bytes: &[u8]) -> Result<(), AllocError> {
    for (i, byte) in bytes.iter().enumerate() {
        push_cell(text, i, u32::from(*byte), "")?;
    }
    Ok(())
}

/// What follows the bytes. `@` is replaced by the name, and `%` by the bits of a value.
const OPEN: &str = "
};

// Opens the trie, in which bks_get%, bks_trie%_get_utf8 and others find values, and returns BKS_OK.
static inline uint32_t @_open(bks_trie *trie) {
    return bks_open(trie, @_table, sizeof @_table);
}
";

/// Appends the function that opens the trie.
fn push_open(text: &mut String, table: &Table, name: &str) -> Result<(), AllocError> {
    let bits = Decimal(table.width.bits() as usize);
    push_pattern(text, OPEN, name, &[bits, bits])
}

/// Appends an array with the bytes, and the function that opens the trie in them.
fn push_array(
    text: &mut String,
    table: &Table,
    bytes: &[u8],
    name: &str,
) -> Result<(), AllocError> {
    push_head(text, name, bytes.len())?;
    push_bytes(text, bytes)?;
    push_open(text, table, name)
}

/// Returns a table in C for `bekstaudi.h`: an array with the bytes of ICU's binary form, which are
/// given, and a function that opens the trie in them.
pub(crate) fn bks_source(table: &Table, bytes: &[u8], name: &str) -> Result<String, AllocError> {
    let (header, _, _) = table.trie.parts();
    let kind = type_name(header.trie_type);
    let mut text = String::new();
    push_title(&mut text, kind, table.width.bits(), bytes.len())?;
    push_array(&mut text, table, bytes, name)?;
    Ok(text)
}
