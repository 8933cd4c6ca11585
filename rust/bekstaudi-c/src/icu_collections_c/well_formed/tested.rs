//! The body for rustc: each byte is compared with the three before it, in loops of which compilers make
//! vector instructions.

use crate::icu_collections_c::well_formed::is_trail;
use crate::support::prelude::*;

/// Returns true if no character starts with the lead byte `lead` and then has the trail byte
/// `trail`.
#[inline(always)]
fn is_no_start(lead: u8, trail: u8) -> bool {
    (lead < 0xC2)
        | (lead > 0xF4)
        | (lead == 0xE0) & (trail < 0xA0)
        | (lead == 0xED) & (trail > 0x9F)
        | (lead == 0xF0) & (trail < 0x90)
        | (lead == 0xF4) & (trail > 0x8F)
}

/// Returns true if the byte `d` may not follow the bytes `a`, `b` and `c` in UTF-8.
#[inline(always)]
fn is_fault(a: u8, b: u8, c: u8, d: u8) -> bool {
    let is_late = (a >= 0xF0) | (b >= 0xE0);
    let is_second = c >= 0xC0;
    (is_trail(d) != (is_late | is_second)) | is_late & !is_trail(c) | is_second & is_no_start(c, d)
}

/// Returns true if a byte from the fourth on may not follow the three before it.
#[inline]
fn has_fault(bytes: &[u8]) -> bool {
    let mut found = false;
    for i in 3..bytes.len() {
        found |= is_fault(bytes[i - 3], bytes[i - 2], bytes[i - 1], bytes[i]);
    }
    found
}

/// Returns how many bytes the blocks of 64 ASCII characters at the start have.
#[inline]
fn ascii_blocks(bytes: &[u8]) -> usize {
    let mut end = 0;
    while bytes.len() - end >= 64 {
        if !bytes[end..end + 64].is_ascii() {
            return end;
        }
        end += 64;
    }
    end
}

/// Returns true if one of the first three bytes may not follow those before it.
#[inline]
fn starts_with_fault(bytes: &[u8]) -> bool {
    is_fault(0, 0, 0, bytes[0])
        | is_fault(0, 0, bytes[0], bytes[1])
        | is_fault(0, bytes[0], bytes[1], bytes[2])
}

/// Returns true if a character that starts with one of the last three bytes goes on after them.
#[inline]
fn ends_in_character(bytes: &[u8]) -> bool {
    let count = bytes.len();
    (bytes[count - 3] >= 0xF0) | (bytes[count - 2] >= 0xE0) | (bytes[count - 1] >= 0xC0)
}

/// Returns true if the bytes are UTF-8.
#[inline]
fn are_characters(bytes: &[u8]) -> bool {
    if bytes.len() < 3 {
        return str::from_utf8(bytes).is_ok();
    }
    !(starts_with_fault(bytes) | ends_in_character(bytes) | has_fault(bytes))
}

/// Returns true if the bytes are UTF-8. Passes the ASCII characters at their start 64 at a time.
#[inline]
pub(crate) fn is_utf8(bytes: &[u8]) -> bool {
    are_characters(&bytes[ascii_blocks(bytes)..])
}
