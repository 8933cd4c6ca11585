//! What is wrong with a line that does not have the form of a row, and what to write instead.

use crate::host::*;
use crate::support::prelude::*;
use crate::ucptab_table::digits::hexadecimal;
use crate::ucptab_table::rows::{after, before, code_points_of, content_of, trimmed};

/// Returns whether all bytes are digits of the base.
fn are_digits(base: u32, bytes: &[u8]) -> bool {
    bytes.iter().all(|byte| char::from(*byte).is_digit(base))
}

/// Returns whether a line starts with U+FEFF in UTF-16, in either byte order.
fn is_utf16(line: &[u8]) -> bool {
    line.starts_with(b"\xff\xfe".as_slice()) || line.starts_with(b"\xfe\xff".as_slice())
}

/// Returns the hint about a line without `;`.
fn separator_hint(content: &[u8]) -> &'static str {
    if content.contains(&b',') {
        "fields are separated by `;`, not by a comma"
    } else if content.contains(&b'\t') {
        "fields are separated by `;`, not by a tab"
    } else {
        "there is no `;` between code points and value"
    }
}

/// Returns whether the first code point of a range, or the last one, starts with the mark.
fn has_mark(mark: &[u8], field: &[u8]) -> bool {
    field.starts_with(mark) || after(b'.', after(b'.', field)).starts_with(mark)
}

/// Returns whether a code point starts with `U+` of either case.
fn has_plus(field: &[u8]) -> bool {
    has_mark(b"U+", field) || has_mark(b"u+", field)
}

/// Returns whether a code point starts with `0x` of either case, or with `\`.
fn has_escape(field: &[u8]) -> bool {
    has_mark(b"0x", field) || has_mark(b"0X", field) || has_mark(b"\\", field)
}

/// Returns whether there is a space or a tab.
fn has_blank(field: &[u8]) -> bool {
    field.contains(&b' ') || field.contains(&b'\t')
}

/// Returns whether a part is more than 8 hexadecimal digits.
fn is_long(part: &[u8]) -> bool {
    part.len() > 8 && are_digits(16, part)
}

/// Returns whether the first code point of a range, or the last one, has more than 8 digits.
fn has_long(field: &[u8]) -> bool {
    is_long(before(b'.', field)) || is_long(after(b'.', after(b'.', field)))
}

/// Returns whether a `.` is first or last.
fn is_open(field: &[u8]) -> bool {
    field.starts_with(b".".as_slice()) || field.ends_with(b".".as_slice())
}

/// Returns whether a field is `HEX`, a mark and `HEX`.
fn is_pair(mark: u8, field: &[u8]) -> bool {
    hexadecimal(before(mark, field)).is_some() && hexadecimal(after(mark, field)).is_some()
}

/// Returns whether there is `-`, `:`, `.` or `...` between two code points.
fn is_other_range(field: &[u8]) -> bool {
    is_pair(b'-', field)
        || is_pair(b':', field)
        || is_pair(b'.', field)
        || after(b'.', field).starts_with(b"..".as_slice())
}

/// Returns the hint about code points that are neither `HEX` nor `HEX..HEX`.
fn code_points_hint(field: &[u8]) -> &'static str {
    if field.is_empty() {
        "there is no code point before `;`"
    } else if has_plus(field) {
        "code points are written 0041, without `U+`"
    } else if has_escape(field) {
        "code points are written 0041, without `0x` or `\\u`"
    } else if has_blank(field) {
        "code points are written 0041 or 0041..005A, without spaces or tabs"
    } else if has_long(field) {
        "a code point has at most 8 hexadecimal digits"
    } else if is_open(field) {
        "a range has a code point before and after `..`"
    } else if is_other_range(field) {
        "a range is written 0041..005A, with two dots"
    } else {
        "code points are hexadecimal, as 0041 or 0041..005A"
    }
}

/// Returns whether a value starts with `-` or `+`.
fn has_sign(value: &[u8]) -> bool {
    value.starts_with(b"-".as_slice()) || value.starts_with(b"+".as_slice())
}

/// Returns whether a value starts with `0x` of either case.
fn has_prefix(value: &[u8]) -> bool {
    value.starts_with(b"0x".as_slice()) || value.starts_with(b"0X".as_slice())
}

/// Returns whether a value is decimal digits with one mark among them.
fn is_split(mark: u8, value: &[u8]) -> bool {
    value.contains(&mark)
        && are_digits(10, before(mark, value))
        && are_digits(10, after(mark, value))
}

/// Returns whether a value is a fraction, as `1/2` or `0.5`.
fn is_fraction(value: &[u8]) -> bool {
    is_split(b'.', value) || is_split(b'/', value)
}

/// Returns whether the first byte is an ASCII letter.
fn starts_with_letter(bytes: &[u8]) -> bool {
    match bytes {
        [first, ..] => first.is_ascii_alphabetic(),
        [] => false,
    }
}

/// Returns the hint about a value that is not 1 to 10 decimal digits.
fn value_hint(value: &[u8]) -> &'static str {
    if value.is_empty() {
        "there is no value after `;`"
    } else if has_sign(value) {
        "values are 0 to 4294967295, without a sign"
    } else if has_prefix(value) {
        "values are decimal, without `0x`"
    } else if are_digits(10, value) {
        "a value has at most 10 digits"
    } else if are_digits(16, value) {
        "values are decimal, without A to F"
    } else if is_fraction(value) {
        "values are whole numbers"
    } else if are_digits(10, before(b' ', before(b'\t', value))) {
        "other text follows the value: a comment starts with `#`"
    } else if starts_with_letter(value) {
        "values are numbers, not names"
    } else {
        "a value has decimal digits only"
    }
}

/// Returns the hint about the fields of a line without its comment: code points and value.
fn fields_hint(content: &[u8]) -> &'static str {
    let field = trimmed(before(b';', content));
    let others = after(b';', content);
    if !content.contains(&b';') {
        separator_hint(content)
    } else if others.contains(&b';') {
        "a row has two fields, HEX;VALUE, and this line has more"
    } else if code_points_of(field).is_none() {
        code_points_hint(field)
    } else {
        value_hint(trimmed(others))
    }
}

/// Returns what is wrong with a line whose fault is `NotARow`, and what to write instead.
///
/// It is the first of the texts here that is true of the line.
pub fn hint(line: &[u8]) -> &'static str {
    let content = content_of(line);
    if line.starts_with(b"\xef\xbb\xbf".as_slice()) {
        "the line starts with a byte order mark: save the file without it"
    } else if is_utf16(line) {
        "the line starts with a byte order mark of UTF-16: save the file in UTF-8"
    } else if content.contains(&b'\0') {
        "the line has a NUL byte, as in UTF-16: save the file in UTF-8"
    } else if content.contains(&b'\r') {
        "a CR has no LF after it: lines end with LF or CR LF"
    } else if content.contains(&b'"') {
        "a row has no quotation marks"
    } else {
        fields_hint(content)
    }
}
