//! The index and the data of a trie, cell by cell, with a count of the reads.

use crate::support::prelude::*;
/// The index and the data of a trie, wherever they are stored.
///
/// [`look_up`](crate::icu_trie_core::lookup::look_up) reads a trie only through these methods, so their count is
/// the number of cells that it read. The count exists only in proofs: it has no upper bound and
/// costs no bytes and no time. [`Steps`] implements it.
pub trait Cells<T> {
    /// Returns the number of cells in the index. Does not count as a read.
    #[allow(dead_code)]
    fn index_len(&self) -> usize;

    /// Returns the number of cells in the data. Does not count as a read.
    fn data_len(&self) -> usize;

    /// Returns the index cell at position `i`, or `None` if `i` is past the end. Counts as one read
    /// in both cases.
    fn index_cell(&mut self, i: usize) -> Option<u16>;

    /// Returns the data cell at position `i`, or `None` if `i` is past the end. Counts as one read
    /// in both cases.
    fn data_cell(&mut self, i: usize) -> Option<T>;

    /// Returns the index cell at position `i`, which must exist. Counts as one read.
    ///
    /// An implementation can override this to read without a bounds check.
    ///
    /// # Panics
    /// Panics if there is no such cell.
    #[inline]
    fn index_at(&mut self, i: usize) -> u16 {
        match self.index_cell(i) {
            Some(cell) => cell,
            None => unreachable!(),
        }
    }

    /// Returns the data cell at position `i`, which must exist. Counts as one read.
    ///
    /// An implementation can override this to read without a bounds check.
    ///
    /// # Panics
    /// Panics if there is no such cell.
    #[inline]
    fn data_at(&mut self, i: usize) -> T {
        match self.data_cell(i) {
            Some(cell) => cell,
            None => unreachable!(),
        }
    }
}
