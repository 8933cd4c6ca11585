//! The first part of bytes that may be ill-formed UTF-8.

use crate::support::prelude::*;
/// Returns the six bits of a trail byte. For any other byte it returns 64 or more.
#[inline(always)]
#[must_use]
pub fn trail_of(byte: u8) -> u32 {
    u32::from(byte.wrapping_sub(0x80))
}

/// Returns the six bits of the trail byte at `place`, or `None` if there is no trail byte.
#[inline(always)]
fn trail_bits(bytes: &[u8], place: usize) -> Option<u32> {
    let bits = trail_of(*bytes.get(place)?);
    if bits >= 0x40 {
        return None;
    }
    Some(bits)
}

/// Returns the block of 64 code points and the index in it of the character at the start of the
/// bytes, or `None` if there is none. The first byte is the lead byte of two.
#[inline(always)]
pub(crate) fn place_of_two(bytes: &[u8]) -> Option<(u32, u32)> {
    let first = u32::from(bytes[0]) - 0xC0;
    let second = trail_bits(bytes, 1)?;
    Some((first, second))
}

/// Returns the character at the start of the bytes, or `None` if there is none. The first byte is
/// the lead byte of two.
#[inline(always)]
pub(crate) fn of_two(bytes: &[u8]) -> Option<char> {
    let (block, place) = place_of_two(bytes)?;
    char::from_u32(block * 64 + place)
}

/// Returns the six bits of each of the two bytes after the first, or `None` if one of them is no
/// trail byte. It takes one test.
#[inline(always)]
fn two_trails(bytes: &[u8]) -> Option<(u32, u32)> {
    let second = trail_of(bytes[1]);
    let third = trail_of(bytes[2]);
    if second | third >= 0x40 {
        return None;
    }
    Some((second, third))
}

/// Returns the block of 64 code points and the index in it of the character at the start of the
/// bytes, or `None` if there is none. The first byte is the lead byte of three. Overlong sequences
/// and surrogates are not characters. The length is checked once, for all reads.
#[inline(always)]
pub(crate) fn place_of_three(bytes: &[u8]) -> Option<(u32, u32)> {
    if bytes.len() < 3 {
        return None;
    }
    let (second, third) = two_trails(bytes)?;
    let first = u32::from(bytes[0]) - 0xE0;
    let block = first * 64 + second;
    if !is_high_after(first, block) {
        return None;
    }
    Some((block, third))
}

/// Returns the character at the start of the bytes, or `None` if there is none. The first byte is
/// the lead byte of three.
#[inline(always)]
pub(crate) fn of_three(bytes: &[u8]) -> Option<char> {
    let (block, place) = place_of_three(bytes)?;
    char::from_u32(block * 64 + place)
}

/// Returns the six bits of each of the three bytes after the first, or `None` if one of them is no
/// trail byte. It takes one test.
#[inline(always)]
fn three_trails(bytes: &[u8]) -> Option<(u32, u32, u32)> {
    let second = trail_of(bytes[1]);
    let third = trail_of(bytes[2]);
    let fourth = trail_of(bytes[3]);
    if second | third | fourth >= 0x40 {
        return None;
    }
    Some((second, third, fourth))
}

/// Returns the character at the start of the bytes, or `None` if there is none. The first byte is
/// the lead byte of four, or greater. Overlong sequences and numbers above 0x10FFFF are not
/// characters. The length is checked once, for all reads.
#[inline(always)]
pub(crate) fn of_four(bytes: &[u8]) -> Option<char> {
    if bytes.len() < 4 {
        return None;
    }
    let (second, third, fourth) = three_trails(bytes)?;
    let high = (u32::from(bytes[0]) - 0xF0) * 64 + second;
    if !is_high_of_four(high) {
        return None;
    }
    char::from_u32(high * 4096 + third * 64 + fourth)
}

/// The upper five bits of three-byte characters: bit `n` is 1 if they cannot be `n`. Those of
/// overlong sequences are 0, those of surrogates 27.
const NO_UPPER_FIVE: u32 = 1 | 1 << 27;

/// Returns true if these can be the upper ten bits of a three-byte character, which its first two
/// bytes contain: they are not those of an overlong sequence or a surrogate. It takes one test.
#[inline(always)]
pub(crate) fn is_high_of_three(high: u32) -> bool {
    (NO_UPPER_FIVE >> (high / 32)) & 1 == 0
}

/// The lead bytes of three after which not every trail byte can follow, 0xE0 and 0xED: bit `n` is
/// that of `0xE0 + n`.
const PARTIAL_LEADS: u32 = 0x2001;

/// Returns the same as `is_high_of_three` of ten bits whose upper four are `first`. For most lead
/// bytes the second byte is not needed.
#[inline(always)]
fn is_high_after(first: u32, high: u32) -> bool {
    if (PARTIAL_LEADS >> first) & 1 == 0 {
        return true;
    }
    is_high_of_three(high)
}

/// Returns true if these can be the upper nine bits of a four-byte character, which its first two
/// bytes contain: they are not those of an overlong sequence or a number above 0x10FFFF.
#[inline(always)]
#[must_use]
pub fn is_high_of_four(high: u32) -> bool {
    0x10 <= high && high < 0x110
}

/// Returns the length of the ill-formed part if the first byte is the lead byte of three.
#[inline]
fn size_of_three(bytes: &[u8]) -> usize {
    let first = u32::from(bytes[0]) - 0xE0;
    let Some(second) = trail_bits(bytes, 1) else {
        return 1;
    };
    if !is_high_of_three(first * 64 + second) {
        return 1;
    }
    2
}

/// Returns the length of the ill-formed part if the first byte is the lead byte of four, or
/// greater.
#[inline]
fn size_of_four(bytes: &[u8]) -> usize {
    let first = u32::from(bytes[0]) - 0xF0;
    let Some(second) = trail_bits(bytes, 1) else {
        return 1;
    };
    if !is_high_of_four(first * 64 + second) {
        return 1;
    }
    let Some(_) = trail_bits(bytes, 2) else {
        return 2;
    };
    3
}

/// Returns the length of the ill-formed part at the start of the bytes (table 3-7 of the Unicode
/// Standard). The bytes are not empty and do not start with a character.
#[cold]
#[inline(never)]
pub(crate) fn ill_formed_size(bytes: &[u8]) -> usize {
    let lead = bytes[0];
    if lead < 0xE0 {
        1
    } else if lead < 0xF0 {
        size_of_three(bytes)
    } else {
        size_of_four(bytes)
    }
}
