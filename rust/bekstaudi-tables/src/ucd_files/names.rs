//! Names of values, and their numbers.

use crate::host::*;
use crate::support::prelude::*;
use crate::ucd_files::value_names::ValueNames;
use crate::ucptab_table::digits::{decimal_number, hexadecimal};

/// A name of a value, and the number of the value.
#[derive(Clone, Copy, Debug)]
pub struct Name<'a> {
    pub text: &'a [u8],
    pub number: usize,
}

/// When two texts are the same name.
#[derive(Clone, Copy, Debug, PartialEq, Eq)]
pub enum Matching {
    /// If they are equal, byte by byte.
    Exact,
    /// If [`is_same_name`] says so.
    Loose,
}

/// How the text of a value becomes a number.
#[derive(Clone, Copy, Debug)]
pub enum Numbering<'a> {
    /// Each value is a decimal number of at most 32 bits.
    Decimal,
    /// Each value is a number of 1 to 8 hexadecimal digits, as a code point is written.
    Hexadecimal,
    /// Each value is 1, whatever its text is: the code points of the lines are a set.
    One,
    /// A value has the number of the first name that matches its text.
    Names(&'a ValueNames<'a>, Matching),
}

/// Returns whether a byte counts if names are compared: it is no space, `_` or `-`.
fn is_significant(byte: u8) -> bool {
    !(byte == b' ' || byte == b'_' || byte == b'-')
}

/// Returns the first byte of a name that counts, in lower case, and what follows it. Returns
/// `None` if no byte counts.
pub(crate) fn first_significant(text: &[u8]) -> Option<(u8, &[u8])> {
    let mut rest = text;
    while let [byte, after @ ..] = rest {
        if is_significant(*byte) {
            return Some((byte.to_ascii_lowercase(), after));
        }
        rest = after;
    }
    None
}

/// Returns whether two texts are the same apart from case, spaces, `_` and `-`.
fn is_alike(left: &[u8], right: &[u8]) -> bool {
    let mut left_rest = left;
    let mut right_rest = right;
    while let Some((byte, left_after)) = first_significant(left_rest) {
        match first_significant(right_rest) {
            Some((other, right_after)) if other == byte => {
                left_rest = left_after;
                right_rest = right_after;
            }
            _ => return false,
        }
    }
    first_significant(right_rest).is_none()
}

/// Returns whether two names are the same apart from case, spaces, `_` and `-`. The Unicode
/// Character Database compares names so (UAX44-LM3), and also without a leading `is`, which counts
/// here. A text that starts with `-` is a negative number, and not the same as another text.
pub fn is_same_name(left: &[u8], right: &[u8]) -> bool {
    left.starts_with(b"-".as_slice()) == right.starts_with(b"-".as_slice()) && is_alike(left, right)
}

/// Returns whether two texts are the same name.
pub(crate) fn is_match(matching: Matching, left: &[u8], right: &[u8]) -> bool {
    match matching {
        Matching::Exact => left == right,
        Matching::Loose => is_same_name(left, right),
    }
}

/// Returns the number that a text writes in 1 to 10 decimal digits. Returns `None` for any other
/// text and for a number of more than 32 bits.
pub fn short_decimal(text: &[u8]) -> Option<u32> {
    let number = decimal_number(text)?;
    u32::try_from(number).ok()
}

/// Returns the number of a value, or `None` if its text is no number or no name.
pub fn number_of(numbering: Numbering<'_>, text: &[u8]) -> Option<u32> {
    match numbering {
        Numbering::Decimal => short_decimal(text),
        Numbering::Hexadecimal => hexadecimal(text),
        Numbering::One => Some(1),
        Numbering::Names(names, matching) => {
            let number = names.number_named(matching, text)?;
            u32::try_from(number).ok()
        }
    }
}
