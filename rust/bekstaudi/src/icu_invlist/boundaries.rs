//! A list of boundaries, wherever it is stored.

use crate::icu_invlist::packing::unpack_into;
use crate::icu_zerovec::{PotentialCodePoint, ZeroSlice};
use crate::support::prelude::*;

/// A view of a list of boundaries: a slice of numbers, or packed 24-bit cells.
pub trait Boundaries: Copy {
    /// Returns how many boundaries there are.
    fn count(&self) -> usize;

    /// Returns boundary number `i`, counted from 0.
    fn at(&self, i: usize) -> u32;

    /// Copies boundaries to `out`, as many as it has elements. The first one is number `from`.
    fn copy_to(&self, from: usize, out: &mut [u32]);
}

impl<'a> Boundaries for &'a [u32] {
    #[inline(always)]
    fn count(&self) -> usize {
        self.len()
    }

    #[inline(always)]
    fn at(&self, i: usize) -> u32 {
        self[i]
    }

    #[inline(always)]
    fn copy_to(&self, from: usize, out: &mut [u32]) {
        out.copy_from_slice(&self[from..from + out.len()]);
    }
}

impl<'a> Boundaries for ZeroSlice<'a, PotentialCodePoint> {
    #[inline(always)]
    fn count(&self) -> usize {
        self.len()
    }

    #[inline(always)]
    fn at(&self, i: usize) -> u32 {
        u32::from(ZeroSlice::at(self, i))
    }

    #[inline(always)]
    fn copy_to(&self, from: usize, out: &mut [u32]) {
        let bytes = self.as_bytes();
        let end = from + out.len();
        unpack_into(out, &bytes[3 * from..3 * end]);
    }
}
