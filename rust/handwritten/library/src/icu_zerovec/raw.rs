//! Reads of cells in packed bytes: the bodies with one test, in `tested`, or with the feature
//! `proved-reads` those in which a proof takes the place of the test.
mod tested;

#[cfg(feature = "proved-reads")]
pub(crate) use proved::{cell_at, cell_below, cell_known, likely_cell_below};
#[cfg(not(feature = "proved-reads"))]
pub(crate) use tested::{cell_at, cell_below, cell_known, likely_cell_below};

/// The bodies of crates/icu_zerovec/src/raw/proved.rt, with one read that is not checked again.
#[cfg(feature = "proved-reads")]
mod proved {
    /// Returns cell `i` of cells of `width` bytes, which is proved to be there, without a test.
    ///
    /// The number of cells depends on a type's width, so a vector of one type is never accepted as one
    /// of another type:
    ///
    /// ```compile_fail
    /// # use bekstaudi::zerovec::{ZeroVec, ule::AsULE};
    /// # #[derive(Clone, Copy)]
    /// # struct Of<'a>(core::marker::PhantomData<&'a u8>);
    /// # impl AsULE for Of<'_> {
    /// #     const WIDTH: usize = 1;
    /// #     fn to_unaligned(self) -> [u8; 4] {
    /// #         [0; 4]
    /// #     }
    /// #     fn from_unaligned(_: &[u8]) -> Option<Self> {
    /// #         None
    /// #     }
    /// # }
    /// fn other<'a>(vector: ZeroVec<'a, Of<'static>>) -> ZeroVec<'a, Of<'a>> {
    ///     vector
    /// }
    /// ```
    #[allow(unsafe_code)]
    #[inline(always)]
    pub(crate) fn cell_at(bytes: &[u8], width: usize, i: usize) -> &[u8] {
        let start = i * width;
        debug_assert!(start + width <= bytes.len());
        // SAFETY: the callers are those that rust/README.md lists, each with the reason why the index
        // is in bounds whatever a user-defined type returns.
        unsafe { bytes.get_unchecked(start..start + width) }
    }

    /// Returns cell `i` of cells of `width` bytes, or `None` if there is none. If `is_inside` is true,
    /// there must be one.
    #[inline(always)]
    pub(crate) fn cell_known(bytes: &[u8], width: usize, i: usize, is_inside: bool) -> Option<&[u8]> {
        if is_inside || i < bytes.len() / width {
            Some(cell_at(bytes, width, i))
        } else {
            None
        }
    }

    /// Returns cell `i` of the first `end` cells of `width` bytes, or `None` if `i` is not less than
    /// `end`.
    #[inline(always)]
    pub(crate) fn cell_below(bytes: &[u8], width: usize, end: usize, i: usize) -> Option<&[u8]> {
        if i < end {
            Some(cell_at(bytes, width, i))
        } else {
            None
        }
    }

    /// Returns what [`cell_below`] returns, for an index that is usually less than `end`.
    #[inline(always)]
    pub(crate) fn likely_cell_below(bytes: &[u8], width: usize, end: usize, i: usize) -> Option<&[u8]> {
        cell_below(bytes, width, end, i)
    }
}
