//! The first code point of 16-bit units.

use crate::support::prelude::*;
/// Returns true if the unit is a high surrogate, the first unit of a pair.
#[inline(always)]
fn is_high_surrogate(unit: u32) -> bool {
    0xD800 <= unit && unit < 0xDC00
}

/// Returns true if the unit is a low surrogate, the second unit of a pair.
#[inline(always)]
fn is_low_surrogate(unit: u32) -> bool {
    0xDC00 <= unit && unit < 0xE000
}

/// Returns the first code point of the units, and what follows it. `None` if and only if there are
/// no units.
///
/// A surrogate that is not part of a pair is a code point of its own. ICU: `U16_NEXT`.
#[inline(always)]
#[must_use]
pub fn first_code_point(units: &[u16]) -> Option<(u32, &[u16])> {
    let (first, rest) = units.split_first()?;
    let unit = u32::from(*first);
    if !is_high_surrogate(unit) {
        return Some((unit, rest));
    }
    let Some((second, after)) = rest.split_first() else {
        return Some((unit, rest));
    };
    let low = u32::from(*second);
    if !is_low_surrogate(low) {
        return Some((unit, rest));
    }
    Some((0x10000 + (unit - 0xD800) * 0x400 + (low - 0xDC00), after))
}
