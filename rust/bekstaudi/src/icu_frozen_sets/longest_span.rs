//! The longest prefix or suffix of a text whose characters are all in a set, or all outside it.

use crate::icu_frozen_sets::ascii_blocks::others_of;
use crate::icu_frozen_sets::same_length::skip_same_length;
use crate::icu_frozen_sets::span_condition::{FrozenKind, Kind, LONG, LongKind};
use crate::icu_frozen_sets::three_byte::wide_places;
use crate::icu_frozen_sets::two_byte::{short_words, skip_two_byte};
use crate::icu_utf::characters::{first_character, last_character};
use crate::icu_utf::first_utf16::first_code_point;
use crate::support::prelude::*;

/// Returns the offset of the first byte from `start` to before `limit` that is not ASCII or not of
/// the kind. If there is none, returns `limit`.
#[inline(always)]
fn skip_ascii<K: Kind>(kind: &mut K, bytes: &[u8], start: usize, limit: usize) -> usize {
    let mut end = start;
    while end < limit {
        let byte = bytes[end];
        if byte >= 0x80 {
            return end;
        }
        if !kind.has_ascii(u32::from(byte)) {
            return end;
        }
        end += 1;
    }
    end
}

/// Returns the length of the longest prefix whose characters are all of the kind. The first `start`
/// bytes are known to be characters of the kind.
#[inline(always)]
fn span_from<K: Kind>(kind: &mut K, bytes: &[u8], start: usize) -> usize {
    let mut passed = start;
    while passed < bytes.len() {
        if let Some(result) = kind.rest(bytes, passed) {
            return result;
        }
        if bytes[passed] < 0x80 {
            let plain = kind.skip_ascii_blocks(bytes, passed);
            passed = skip_ascii(kind, bytes, plain, bytes.len());
            if passed >= bytes.len() {
                return passed;
            }
            if bytes[passed] < 0x80 {
                return passed;
            }
            continue;
        }
        let Some((c, size)) = first_character(&bytes[passed..]) else {
            return passed;
        };
        if !kind.has(u32::from(c)) {
            return passed;
        }
        passed += size;
        if size != 3 {
            continue;
        }
        let wide = kind.skip_three_byte(bytes, passed);
        if wide.is_end {
            return wide.end;
        }
        passed = wide.end;
    }
    passed
}

/// Returns the length of the longest prefix whose characters are all of the kind.
#[inline(always)]
pub(crate) fn span<K: Kind>(kind: &mut K, bytes: &[u8]) -> usize {
    span_from(kind, bytes, 0)
}

/// The same as `span_from`, by tables of the frozen set, which take about as long to make as a span
/// of [`LONG`] bytes. A text of characters of one and two bytes that alternate is passed first.
#[inline(never)]
pub(crate) fn long_span(table: &[u64], held: bool, bytes: &[u8], start: usize) -> usize {
    let words = short_words(table, held);
    let others = others_of(&words);
    let places = wide_places(table);
    let passed = skip_two_byte(&words, bytes, start);
    span_from(
        &mut LongKind::new(table, held, &words, &places, &others),
        bytes,
        passed,
    )
}

/// The same as `span_from`, for a frozen set.
#[inline(never)]
fn frozen_span_from(table: &[u64], bytes: &[u8], start: usize, held: bool) -> usize {
    span_from(&mut FrozenKind::new(table, held), bytes, start)
}

/// The same as `frozen_span_from`, faster while the span is short. It is not inlined, so that a
/// call for a word in ASCII saves no registers. All arguments are in registers.
#[inline(never)]
fn near_span_from(table: &[u64], bytes: &[u8], start: usize, held: bool) -> usize {
    let far = bytes.len().saturating_sub(LONG);
    let mut passed = start;
    while passed < bytes.len() {
        if passed >= LONG {
            return long_span(table, held, bytes, passed);
        }
        let near = skip_same_length(table, held, bytes, passed, far);
        if near.is_end {
            return near.end;
        }
        if near.end == passed {
            return frozen_span_from(table, bytes, passed, held);
        }
        passed = near.end;
    }
    passed
}

/// The same as `span`, for a frozen set.
#[inline(always)]
pub(crate) fn frozen_span(table: &[u64], held: bool, bytes: &[u8]) -> usize {
    if !bytes.is_empty() && bytes[0] >= 0x80 {
        return near_span_from(table, bytes, 0, held);
    }
    let near = bytes.len().min(LONG);
    let passed = skip_ascii(&mut FrozenKind::new(table, held), bytes, 0, near);
    if passed < near && bytes[passed] < 0x80 {
        return passed;
    }
    if passed >= bytes.len() {
        return passed;
    }
    near_span_from(table, bytes, passed, held)
}

/// Returns the offset of the longest suffix whose characters are all of the kind.
#[inline(always)]
pub(crate) fn span_back<K: Kind>(kind: &mut K, bytes: &[u8]) -> usize {
    let mut start = bytes.len();
    while start > 0 {
        let Some((c, size)) = last_character(&bytes[..start]) else {
            return start;
        };
        if !kind.has(u32::from(c)) {
            return start;
        }
        start -= size;
    }
    0
}

/// Returns the number of 16-bit units of a code point.
#[inline(always)]
fn unit_size(c: u32) -> usize {
    if c < 0x1_0000 { 1 } else { 2 }
}

/// Returns the number of units of the longest prefix whose code points are all of the kind.
#[inline(always)]
pub(crate) fn span_units<K: Kind>(kind: &mut K, units: &[u16]) -> usize {
    let mut passed = 0;
    let mut rest = units;
    while let Some((c, after)) = first_code_point(rest) {
        if !kind.has(c) {
            return passed;
        }
        passed += unit_size(c);
        rest = after;
    }
    passed
}
