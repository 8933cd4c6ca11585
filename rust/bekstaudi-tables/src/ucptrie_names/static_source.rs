//! A table in Rust as a static trie of the crate `bekstaudi`, to follow the module of the table.

use crate::host::*;
use crate::support::AllocError;
use crate::support::prelude::*;
use crate::ucd_files::names::Name;
use crate::ucptab_table::pattern::Number::Decimal;
use crate::ucptab_table::pattern::{push_named, push_pattern};
use crate::ucptrie_names::value_names::{
    EnumValue, MOST, enum_name, enum_values, highest_of, push_values,
};

/// What precedes the values of the enum. `@` is replaced by the name of the module.
const ENUM: &str = "
bekstaudi::trie_values! {
    /// The values of `@`, by name.
    #[allow(dead_code, clippy::enum_variant_names, clippy::upper_case_acronyms)]
";

/// The trie. `@` is replaced by the name of the module.
const TRIE: &str = "
/// The trie of `@`.
#[allow(dead_code)]
#[rustfmt::skip]
pub static ";

/// What follows the name of the trie. `@` is replaced by the type of its values.
const TYPE: &str = ": bekstaudi::codepointtrie::CodePointTrie<'static, @> = ";

/// Appends what precedes the values of the enum with this title, whose cells have so many bits.
fn push_enum_head(
    text: &mut String,
    module_name: &str,
    title: &str,
    bits: u32,
) -> Result<(), AllocError> {
    push_named(text, ENUM, module_name)?;
    let number = [Decimal(bits as usize)];
    push_pattern(text, "    pub enum @: u% {\n", title, &number)
}

/// Appends the enum of a module with this title, whose cells have so many bits.
pub(crate) fn push_enum(
    text: &mut String,
    module_name: &str,
    title: &str,
    bits: u32,
    values: &[EnumValue],
) -> Result<(), AllocError> {
    push_enum_head(text, module_name, title, bits)?;
    push_values(text, "        ", "", values)?;
    text.try_push_str("    }\n}\n")
}

/// Returns a text with its ASCII letters in capitals.
fn capitals(text: &str) -> Result<String, AllocError> {
    let mut capitals = String::new();
    capitals.try_push_str(text)?;
    capitals.make_ascii_uppercase();
    Ok(capitals)
}

/// Appends the declaration of the trie of a module, with values of a type.
fn push_static(text: &mut String, module_name: &str, value: &str) -> Result<(), AllocError> {
    let name = capitals(module_name)?;
    push_named(text, TRIE, module_name)?;
    text.try_push_str(name.as_str())?;
    push_named(text, TYPE, value)?;
    push_named(text, "bekstaudi::trie_of!(@ as ", module_name)?;
    push_named(text, "@);\n", value)
}

/// Returns the type of numbers with so many bits in Rust.
fn number_type(bits: u32) -> Result<String, AllocError> {
    let mut text = String::new();
    push_pattern(&mut text, "u%", "", &[Decimal(bits as usize)])?;
    Ok(text)
}

/// Returns the source of a static trie with the table of a module, whose values are numbers with so
/// many bits.
fn number_source(module_name: &str, bits: u32) -> Result<String, AllocError> {
    let value = number_type(bits)?;
    let mut text = String::new();
    push_static(&mut text, module_name, value.as_str())?;
    Ok(text)
}

/// Returns the source of a static trie with the table of a module, and before it the enum of its
/// values, whose cells have so many bits.
fn enum_source(module_name: &str, bits: u32, values: &[EnumValue]) -> Result<String, AllocError> {
    let title = enum_name(module_name)?;
    let mut text = String::new();
    push_enum(&mut text, module_name, title.as_str(), bits, values)?;
    push_static(&mut text, module_name, title.as_str())?;
    Ok(text)
}

/// Returns the source of a static trie with the table of a module, whose values have so many bits.
/// If they have names, up to 4,096, they are an enum, which is declared before it.
///
/// # Errors
/// Returns [`AllocError`] if an allocation fails.
pub fn static_source(
    module_name: &str,
    bits: u32,
    names: &[Name<'_>],
) -> Result<String, AllocError> {
    if names.is_empty() || names.len() > MOST {
        return number_source(module_name, bits);
    }
    let values = enum_values(names, true, highest_of(bits))?;
    enum_source(module_name, bits, &values)
}
