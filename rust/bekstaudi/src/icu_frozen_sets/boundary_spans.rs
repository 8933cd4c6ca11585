//! Spans of texts by the boundaries of a set, without a frozen set.

use crate::icu_frozen_sets::longest_span::{span, span_back, span_units};
use crate::icu_frozen_sets::span_condition::EndsKind;
use crate::support::prelude::*;

/// Returns the length in bytes of the longest prefix of `bytes` whose characters are all in the set
/// with these boundaries, or all outside it if `held` is false. `bytes` may be ill-formed UTF-8; an
/// ill-formed sequence ends the span. The result is unspecified (but memory-safe) if the numbers are
/// not the boundaries of a set.
#[inline(always)]
#[must_use]
pub fn span_utf8(ends: &[u32], bytes: &[u8], held: bool) -> usize {
    span(&mut EndsKind::new(ends, held), bytes)
}

/// Returns the byte offset at which the longest suffix of `bytes` starts whose characters are all in
/// the set with these boundaries, or all outside it if `held` is false. `bytes` may be ill-formed
/// UTF-8; an ill-formed sequence ends the span. The result is unspecified (but memory-safe) if the
/// numbers are not the boundaries of a set.
#[inline(always)]
#[must_use]
pub fn span_back_utf8(ends: &[u32], bytes: &[u8], held: bool) -> usize {
    span_back(&mut EndsKind::new(ends, held), bytes)
}

/// Returns the number of units of the longest prefix of 16-bit units whose code points are all in the
/// set with these boundaries, or all outside it if `held` is false. Surrogate pairs are one code
/// point, and each other unit is a code point of its own. The result is unspecified (but
/// memory-safe) if the numbers are not the boundaries of a set.
#[inline(always)]
#[must_use]
pub fn span_utf16(ends: &[u32], units: &[u16], held: bool) -> usize {
    span_units(&mut EndsKind::new(ends, held), units)
}
