//! The units of a trie as source in C and in Rust.
use crate::host::*;
use crate::support::AllocError;
use crate::support::prelude::*;
use crate::ucptab_table::pattern::Number::Decimal;
use crate::ucptab_table::pattern::{push_cell, push_pattern};
use bekstaudi::zerovec::ZeroSlice;

/// What precedes the units in C. `@` is replaced by the name, and `%` by the number of units, of
/// bytes, and of units again.
const C_FRONT: &str = "\
// Made by ucptrie: the units of a UCharsTrie. Units: %, % bytes.
// ICU (C++): icu::UCharsTrie trie(@_units);
// bekstaudi.h, if the byte order is little-endian:
//     bks_units_get(@_units, sizeof @_units, key, count, &value)

#include <stdint.h>

#if defined(__GNUC__) || defined(__clang__)
__attribute__((unused)) // No warning in a file that does not use the units.
#endif
static const uint16_t @_units[%]={
";

/// What precedes the units in Rust, as in C.
const RUST_FRONT: &str = "\
// Made by ucptrie: the units of a UCharsTrie. Units: %, % bytes.
#[allow(dead_code, non_snake_case, clippy::module_inception)]
pub mod @ {
    /// In the crate `icu_collections` they are read by
    /// `Char16Trie::new(ZeroVec::alloc_from_slice(&UNITS))`, and in `bekstaudi` by
    /// `unit_trie!(@::UNITS)`, also in a constant.
    #[rustfmt::skip]
    pub static UNITS: [u16; %] = [
";

/// Returns the units between these texts.
fn text_of(
    units: ZeroSlice<'_, u16>,
    name: &str,
    front: &str,
    end: &str,
) -> Result<String, AllocError> {
    let (count, bytes) = (units.len(), units.as_bytes().len());
    let numbers = [Decimal(count), Decimal(bytes), Decimal(count)];
    let mut text = String::new();
    push_pattern(&mut text, front, name, &numbers)?;
    for (i, unit) in units.iter().enumerate() {
        push_cell(&mut text, i, u32::from(unit), "")?;
    }
    text.try_push_str(end)?;
    Ok(text)
}

/// Returns the units in C: an array whose name starts with this one.
pub(crate) fn c_text(units: ZeroSlice<'_, u16>, name: &str) -> Result<String, AllocError> {
    text_of(units, name, C_FRONT, "\n};\n")
}

/// Returns the units in Rust: a module of this name with a static array.
pub(crate) fn rust_text(units: ZeroSlice<'_, u16>, name: &str) -> Result<String, AllocError> {
    text_of(units, name, RUST_FRONT, "\n    ];\n}\n")
}
