//! Which ASCII characters a set contains.

use crate::icu_invlist::codepointinvlist::CodePointInversionList;
use crate::support::prelude::*;

/// Records that the set contains the characters `from..to`.
#[inline(always)]
fn mark(ascii: &mut [bool; 128], from: u32, to: u32) {
    for c in from..to {
        ascii[c as usize] = true;
    }
}

/// Returns whether the set contains each ASCII character.
#[inline]
pub(crate) fn ascii_of(set: &CodePointInversionList<'_>) -> [bool; 128] {
    let mut ascii = [false; 128];
    for range in set.iter_ranges() {
        if *range.start() >= 128 {
            return ascii;
        }
        mark(&mut ascii, *range.start(), (*range.end() + 1).min(128));
    }
    ascii
}
