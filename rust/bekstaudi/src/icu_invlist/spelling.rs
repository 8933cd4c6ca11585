//! How the ranges of a set are spelled in JSON.

#![cfg(any(feature = "json", feature = "serde"))]
use crate::icu_zerovec::MemoryError;
use crate::support::prelude::*;

/// Returns the first character and the rest of the text.
#[inline]
fn first_of(text: &str) -> Option<(char, &str)> {
    let mut rest = text.chars();
    let first = rest.next()?;
    Some((first, rest.as_str()))
}

/// Reads one hexadecimal digit. Returns `number` with that digit appended, and the rest of the
/// text.
#[inline]
fn digit_at(number: u32, text: &str) -> Option<(u32, &str)> {
    let (digit, rest) = first_of(text)?;
    let digit = digit.to_digit(16)?;
    Some((number * 16 + digit, rest))
}

/// Reads four hexadecimal digits. Returns their number and the rest of the text.
#[inline]
fn hex_at(text: &str) -> Option<(u32, &str)> {
    let (first, rest) = digit_at(0, text)?;
    let (second, rest) = digit_at(first, rest)?;
    let (third, rest) = digit_at(second, rest)?;
    digit_at(third, rest)
}

/// Reads a code point: `U+` and four hexadecimal digits of either case, or a character. Returns it
/// and the rest of the text.
#[inline]
fn point_at(text: &str) -> Option<(u32, &str)> {
    let (first, rest) = first_of(text)?;
    if first == 'U' {
        if let Some(('+', digits)) = first_of(rest) {
            return hex_at(digits);
        }
    }
    Some((first as u32, rest))
}

/// Returns the first and the last code point of the range that the whole text spells.
fn range_at(text: &str) -> Option<(u32, u32)> {
    let (first, rest) = point_at(text)?;
    if first_of(rest).is_none() {
        return Some((first, first));
    }
    let (minus, rest) = point_at(rest)?;
    if minus != 0x2D {
        return None;
    }
    let (last, rest) = point_at(rest)?;
    match first_of(rest) {
        None => Some((first, last)),
        Some(_) => None,
    }
}

/// Returns the first and the last code point of the range that the whole text spells, or `None` if
/// it does not spell a range.
#[inline]
pub(crate) fn range_of(text: &str) -> Option<(u32, u32)> {
    range_at(text)
}

/// Returns the upper-case hexadecimal digit of a number below 16.
#[inline]
fn upper_digit(digit: u32) -> char {
    if digit < 10 {
        char::from(0x30 + digit as u8)
    } else {
        char::from(0x37 + digit as u8)
    }
}

/// Appends the four hexadecimal digits of a number below 0x10000 to the text.
#[inline]
fn push_hex(text: &mut String, number: u32) -> Result<(), MemoryError> {
    text.try_push(upper_digit(number / 4096 % 16))?;
    text.try_push(upper_digit(number / 256 % 16))?;
    text.try_push(upper_digit(number / 16 % 16))?;
    text.try_push(upper_digit(number % 16))?;
    Ok(())
}

/// Appends a code point to the text.
#[inline]
fn push_point(text: &mut String, point: u32) -> Result<(), MemoryError> {
    match char::from_u32(point) {
        Some(c) => text.try_push(c)?,
        None => {
            text.try_push('U')?;
            text.try_push('+')?;
            push_hex(text, point)?;
        }
    }
    Ok(())
}

/// Returns the text of the range from `first` to `last` inclusive.
#[inline]
pub(crate) fn text_of_range(first: u32, last: u32) -> Result<String, MemoryError> {
    let mut text = String::new();
    push_point(&mut text, first)?;
    if first != last {
        text.try_push('-')?;
        push_point(&mut text, last)?;
    }
    Ok(text)
}
