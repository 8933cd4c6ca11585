//! The characters of a span as long as it is short, without tables. Those of each size have a loop
//! of their own: in a text, a character mostly has the size of the one before it.

use crate::icu_frozen_sets::three_byte::Passed;
use crate::icu_frozen_sets::view::contains;
use crate::support::prelude::*;

/// Returns the character of one byte at the start of the bytes, or `None` if there is none.
#[inline(always)]
fn of_one(bytes: &[u8]) -> Option<u32> {
    if bytes[0] >= 0x80 {
        return None;
    }
    Some(u32::from(bytes[0]))
}

/// Returns the character of two bytes at the start of the bytes, or `None` if there is none.
#[inline(always)]
fn of_two(bytes: &[u8]) -> Option<u32> {
    if bytes[0] < 0xC2 || bytes[0] >= 0xE0 || bytes[1] / 64 != 2 {
        return None;
    }
    Some(64 * u32::from(bytes[0] % 32) + u32::from(bytes[1] % 64))
}

/// Returns the character of three bytes at the start of the bytes, or `None` if there is none.
#[inline(always)]
fn of_three(bytes: &[u8]) -> Option<u32> {
    if bytes[1] / 64 != 2 || bytes[2] / 64 != 2 {
        return None;
    }
    let both = 64 * u32::from(bytes[0]) + u32::from(bytes[1]);
    if both < 0x38A0 || both >= 0x3C80 || both / 32 == 0x1DF {
        return None;
    }
    Some(64 * (both - 0x3880) + u32::from(bytes[2] % 64))
}

/// Returns the character of four bytes at the start of the bytes, or `None` if there is none.
#[inline(always)]
fn of_four(bytes: &[u8]) -> Option<u32> {
    if bytes[1] / 64 != 2 || bytes[2] / 64 != 2 || bytes[3] / 64 != 2 {
        return None;
    }
    let lead = u32::from(bytes[0]);
    let both = 64 * lead + u32::from(bytes[1]);
    if both < 0x3C90 || both >= 0x3D90 {
        return None;
    }
    let last = 64 * u32::from(bytes[2] % 64) + u32::from(bytes[3] % 64);
    Some(4096 * (both - 0x3C80) + last)
}

/// Returns the character of `SIZE` bytes at the start of the bytes, or `None` if there is none.
#[inline(always)]
fn character<const SIZE: usize>(bytes: &[u8]) -> Option<u32> {
    match SIZE {
        1 => of_one(bytes),
        2 => of_two(bytes),
        3 => of_three(bytes),
        _ => of_four(bytes),
    }
}

/// Passes characters of `SIZE` bytes that are of the kind and before the last `far` bytes.
#[inline(always)]
fn skip_of_size<const SIZE: usize>(
    table: &[u64],
    held: bool,
    bytes: &[u8],
    start: usize,
    far: usize,
) -> Passed {
    let mut rest = &bytes[start..];
    while rest.len() >= far + SIZE {
        let end = bytes.len() - rest.len();
        let Some(c) = character::<SIZE>(rest) else {
            return Passed { end, is_end: false };
        };
        if contains(table, c) != held {
            return Passed { end, is_end: true };
        }
        rest = &rest[SIZE..];
    }
    Passed {
        end: bytes.len() - rest.len(),
        is_end: false,
    }
}

/// Passes characters of the kind that have the size of the first one and are before the last `far`
/// bytes.
#[inline(always)]
pub(crate) fn skip_same_length(
    table: &[u64],
    held: bool,
    bytes: &[u8],
    start: usize,
    far: usize,
) -> Passed {
    if bytes[start] < 0x80 {
        return skip_of_size::<1>(table, held, bytes, start, far);
    }
    if bytes[start] < 0xE0 {
        return skip_of_size::<2>(table, held, bytes, start, far);
    }
    if bytes[start] < 0xF0 {
        return skip_of_size::<3>(table, held, bytes, start, far);
    }
    skip_of_size::<4>(table, held, bytes, start, far)
}
