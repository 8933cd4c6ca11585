//! The properties of a joined table as source: a type for the values of each, and a function that
//! returns the value of a combination.

use crate::host::*;
use crate::support::AllocError;
use crate::support::prelude::*;
use crate::ucd_files::names::Name;
use crate::ucptab_table::pattern::Number::Decimal;
use crate::ucptab_table::pattern::{push_cell, push_named, push_pattern};
use crate::ucptrie_names::static_source::push_enum as push_static_enum;
use crate::ucptrie_names::value_names::{
    EnumValue, enum_name, enum_values, highest_of, names_source, push_attributes, push_rust_enum,
};
use crate::ucptrie_tables::form::Form;
use crate::ucptrie_tables::width::ValueWidth;

/// What the values of a property are.
#[derive(Clone, Copy)]
pub enum PropertyValues<'a> {
    /// True and false, which are 1 and 0.
    Binary,
    /// Values with these names.
    Names(&'a [Name<'a>]),
    /// Numbers.
    Numbers,
}

/// A property of a joined table.
pub struct JoinedProperty<'a> {
    /// The name of its function.
    pub name: &'a str,
    /// What its values are.
    pub values: PropertyValues<'a>,
    /// Its value in each combination, by the number of the combination.
    pub numbers: Vec<u32>,
}

impl<'a> JoinedProperty<'a> {
    /// Returns the fewest bits that all its values fit.
    fn bits(&self) -> u32 {
        ValueWidth::of_value(self.numbers.iter().copied().max().unwrap_or(0)).bits()
    }
}

/// Appends numbers as the cells of an array.
fn push_cells(text: &mut String, numbers: &[u32]) -> Result<(), AllocError> {
    for (i, number) in numbers.iter().enumerate() {
        push_cell(text, i, *number, "")?;
    }
    Ok(())
}

/// What precedes the type of a function's result in Rust. `@` is replaced by the enum of the joined
/// values.
const RUST_IMPL: &str = "
#[allow(dead_code)]
impl @ {
";

/// Returns the identifier of the value with this number, or nothing if no value has it.
fn identifier_of(values: &[EnumValue], number: u32) -> &str {
    let mut rest = values;
    while let [value, after @ ..] = rest {
        if value.number == number as usize {
            return value.identifier.as_str();
        }
        rest = after;
    }
    ""
}

/// Appends the values of an enum with this title that the combinations have, a line for each.
fn push_identifiers(
    text: &mut String,
    title: &str,
    values: &[EnumValue],
    numbers: &[u32],
) -> Result<(), AllocError> {
    for number in numbers {
        push_named(text, "            @::", title)?;
        text.try_push_str(identifier_of(values, *number))?;
        text.try_push_str(",\n")?;
    }
    Ok(())
}

/// The first lines of a function in Rust whose result is a value of an enum. `@` is replaced by its
/// name.
const RUST_ENUM: &str = "    /// Returns the value of `@`.
    #[must_use]
    #[rustfmt::skip]
    pub const fn @(self) -> ";

/// Appends the function that returns a value of an enum with this title in Rust.
fn push_rust_enum_function(
    text: &mut String,
    property: &JoinedProperty<'_>,
    title: &str,
    values: &[EnumValue],
) -> Result<(), AllocError> {
    let count = [Decimal(property.numbers.len())];
    push_named(text, RUST_ENUM, property.name)?;
    push_pattern(
        text,
        "@ {\n        const VALUES: [@; %] = [\n",
        title,
        &count,
    )?;
    push_identifiers(text, title, values, &property.numbers)?;
    text.try_push_str("        ];\n        VALUES[self as usize]\n    }\n}\n")
}

/// The function of a property that is true or false in Rust, up to its cells. `@` is replaced by
/// its name, and `%` by how many there are.
const RUST_BINARY: &str = "    /// Returns whether `@` is true.
    #[must_use]
    #[rustfmt::skip]
    pub const fn @(self) -> bool {
        const VALUES: [u8; %] = [
";

/// The function of a property with numbers in Rust, up to its cells.
const RUST_NUMBERS: &str = "    /// Returns the number of `@`.
    #[must_use]
    #[rustfmt::skip]
    pub const fn @(self) -> u32 {
        const VALUES: [u32; %] = [
";

/// Appends the function of a property without an enum in Rust.
fn push_rust_cells_function(
    text: &mut String,
    property: &JoinedProperty<'_>,
) -> Result<(), AllocError> {
    let count = [Decimal(property.numbers.len())];
    let (start, end) = match property.values {
        PropertyValues::Binary => (
            RUST_BINARY,
            "\n        ];\n        VALUES[self as usize] != 0\n    }\n}\n",
        ),
        _ => (
            RUST_NUMBERS,
            "\n        ];\n        VALUES[self as usize]\n    }\n}\n",
        ),
    };
    push_pattern(text, start, property.name, &count)?;
    push_cells(text, &property.numbers)?;
    text.try_push_str(end)
}

/// Appends the enum of a property in Rust.
fn push_enum(
    text: &mut String,
    property: &JoinedProperty<'_>,
    title: &str,
    is_static: bool,
    values: &[EnumValue],
) -> Result<(), AllocError> {
    let bits = property.bits();
    if is_static {
        return push_static_enum(text, property.name, title, bits, values);
    }
    push_attributes(text, property.name, bits)?;
    push_rust_enum(text, title, bits, values)
}

/// Appends the enum of a property in Rust, and its function, a method of the enum of the joined
/// values with the title `joined`.
fn push_rust_named(
    text: &mut String,
    joined: &str,
    is_static: bool,
    property: &JoinedProperty<'_>,
    names: &[Name<'_>],
) -> Result<(), AllocError> {
    let title = enum_name(property.name)?;
    let values = enum_values(names, true, highest_of(property.bits()))?;
    push_enum(text, property, title.as_str(), is_static, &values)?;
    push_named(text, RUST_IMPL, joined)?;
    push_rust_enum_function(text, property, title.as_str(), &values)
}

/// Appends what a property adds to source in Rust.
fn push_rust_property(
    text: &mut String,
    joined: &str,
    is_static: bool,
    property: &JoinedProperty<'_>,
) -> Result<(), AllocError> {
    if let PropertyValues::Names(names) = property.values {
        return push_rust_named(text, joined, is_static, property, names);
    }
    push_named(text, RUST_IMPL, joined)?;
    push_rust_cells_function(text, property)
}

/// Appends what properties add to source in Rust.
fn push_rust_properties(
    text: &mut String,
    module_name: &str,
    is_static: bool,
    properties: &[JoinedProperty<'_>],
) -> Result<(), AllocError> {
    let joined = enum_name(module_name)?;
    for property in properties {
        push_rust_property(text, joined.as_str(), is_static, property)?;
    }
    Ok(())
}

/// The function of a property that is true or false in C, up to its cells. `@` is replaced by its
/// name, and `%` by the bits of a cell and by how many there are.
const C_BINARY: &str = "static inline bool @(uint32_t value) {
    static const uint%_t values[%]={
";

/// The function of another property in C, up to its cells.
const C_NUMBERS: &str = "static inline uint32_t @(uint32_t value) {
    static const uint%_t values[%]={
";

/// The end of a function in C. `%` is replaced by how many combinations there are.
const C_END: &str = "
    };
    return values[value < % ? value : 0]";

/// What precedes a function in C. `@` is replaced by the name of the property.
const C_COMMENT: &str = "
// The value of @ in a value of the table, or in 0 for any other number.
";

/// Appends the function of a property in C, with this name.
fn push_c_function(
    text: &mut String,
    name: &str,
    property: &JoinedProperty<'_>,
) -> Result<(), AllocError> {
    let count = Decimal(property.numbers.len());
    let (start, end) = match property.values {
        PropertyValues::Binary => (C_BINARY, " != 0;\n}\n"),
        _ => (C_NUMBERS, ";\n}\n"),
    };
    let bits = Decimal(property.bits() as usize);
    push_named(text, C_COMMENT, property.name)?;
    push_pattern(text, start, name, &[bits, count])?;
    push_cells(text, &property.numbers)?;
    push_pattern(text, C_END, "", &[count])?;
    text.try_push_str(end)
}

/// Returns the name of a property's function in C.
fn c_name(table: &str, property: &str) -> Result<String, AllocError> {
    let mut name = String::new();
    name.try_push_str(table)?;
    name.try_push('_')?;
    name.try_push_str(property)?;
    Ok(name)
}

/// Appends what a property adds to source in C.
fn push_c_property(
    text: &mut String,
    table: &str,
    property: &JoinedProperty<'_>,
) -> Result<(), AllocError> {
    let name = c_name(table, property.name)?;
    if let PropertyValues::Names(names) = property.values {
        let source = names_source(Form::C(name.as_str()), 32, names)?;
        text.try_push_str(source.as_str())?;
    }
    push_c_function(text, name.as_str(), property)
}

/// Appends what properties add to source in C.
fn push_c_properties(
    text: &mut String,
    table: &str,
    properties: &[JoinedProperty<'_>],
) -> Result<(), AllocError> {
    text.try_push_str("\n#include <stdbool.h>\n")?;
    for property in properties {
        push_c_property(text, table, property)?;
    }
    Ok(())
}

/// Returns the source of the properties of a joined table, to follow that of the table: for each an
/// enum of its values, if they have names, and a function. In Rust it is a method of the enum of
/// the joined values, which is that of a static trie if `is_static`. It is empty in other forms.
///
/// # Errors
/// Returns [`AllocError`] if an allocation fails.
pub fn properties_source(
    form: Form<'_>,
    is_static: bool,
    properties: &[JoinedProperty<'_>],
) -> Result<String, AllocError> {
    let mut text = String::new();
    match form {
        Form::Rust(module_name) => {
            push_rust_properties(&mut text, module_name, is_static, properties)?;
        }
        Form::C(table) | Form::Bks(table) => push_c_properties(&mut text, table, properties)?,
        _ => {}
    }
    Ok(text)
}
