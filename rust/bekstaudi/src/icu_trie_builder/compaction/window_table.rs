//! A hash table of the windows of some cells. Of equal windows it has the first one. The hash makes
//! it unnecessary to compare a window with every other one.

use crate::icu_trie_builder::compaction::hashing::{hash_after, hash_of, leaving_factor_of};
use crate::support::AllocError;
use crate::support::prelude::*;

/// The number of buckets of a new table.
const FIRST_BUCKETS: usize = 256;

/// The number of buckets from which on a table does not grow.
const MOST_BUCKETS: usize = 0x100000;

/// The distinct windows of some cells, by their hash.
pub(crate) struct WindowTable {
    /// The number of cells in a window.
    size: usize,
    /// The factor for a cell that leaves a window.
    leaving: u64,
    /// The table has the windows that start before this position.
    entered: usize,
    /// For each distinct window, the first position at which it occurs.
    starts: Vec<u32>,
    /// For each bucket, the number of its newest window plus one, or 0.
    heads: Vec<u32>,
    /// For each window, the number of the one before it in its bucket plus one, or 0.
    next: Vec<u32>,
}

impl WindowTable {
    /// Makes an empty table for windows of `size` cells, with enough buckets for the windows of
    /// `cells` cells.
    ///
    /// # Errors
    ///
    /// `AllocError` if the allocation fails.
    #[inline]
    pub(crate) fn for_cells(size: usize, cells: usize) -> Result<WindowTable, AllocError> {
        let buckets = cells.clamp(FIRST_BUCKETS, MOST_BUCKETS);
        WindowTable::with_buckets(size, buckets)
    }

    /// Makes an empty table with `buckets` buckets.
    #[inline]
    fn with_buckets(size: usize, buckets: usize) -> Result<WindowTable, AllocError> {
        Ok(WindowTable {
            size,
            leaving: leaving_factor_of(size),
            entered: 0,
            starts: Vec::new(),
            heads: zeros(buckets)?,
            next: Vec::new(),
        })
    }

    /// Returns the number of cells in a window.
    #[inline]
    pub(crate) fn size(&self) -> usize {
        self.size
    }

    /// Returns the bucket of windows with this hash.
    #[inline]
    fn bucket_of(&self, hash: u64) -> usize {
        (hash / 0x1_0000_0000 * self.heads.len() as u64 / 0x1_0000_0000) as usize
    }

    /// Returns the first position at which `wanted` occurs in `cells`, or `None` if the table has
    /// no such window. `hash` is the hash of `wanted`.
    // Few searches go past the first test, and a call would take longer than that.
    #[inline(always)]
    pub(crate) fn find(&self, cells: &[u32], wanted: &[u32], hash: u64) -> Option<usize> {
        let mut at = self.heads[self.bucket_of(hash)] as usize;
        while at > 0 {
            let start = self.starts[at - 1] as usize;
            if &cells[start..start + self.size] == wanted {
                return Some(start);
            }
            at = self.next[at - 1] as usize;
        }
        None
    }

    /// Adds the next window, whose hash this is, unless the table has an equal one.
    fn enter(&mut self, cells: &[u32], hash: u64) -> Result<(), AllocError> {
        let at = self.entered;
        if let Some(_first) = self.find(cells, &cells[at..at + self.size], hash) {
            self.entered = at + 1;
            return Ok(());
        }
        let bucket = self.bucket_of(hash);
        let newest = self.heads[bucket];
        // With this, the second push succeeds if the first one does.
        self.next.try_room(1)?;
        self.starts.try_push(at as u32)?;
        self.next.try_push(newest)?;
        set_head(&mut self.heads, bucket, self.starts.len() as u32);
        self.entered = at + 1;
        Ok(())
    }

    /// Adds all windows of `cells`.
    fn enter_all(&mut self, cells: &[u32]) -> Result<(), AllocError> {
        let size = self.size;
        let from = self.entered;
        let count = window_count(cells.len(), size);
        if from == count {
            return Ok(());
        }
        let mut hash = hash_of(&cells[from..from + size]);
        for at in from..count {
            self.enter(cells, hash)?;
            hash = hash_after(cells, at, size, self.leaving, hash);
        }
        Ok(())
    }

    /// Empties a full table and gives it more buckets.
    #[inline]
    fn grow(&mut self) -> Result<(), AllocError> {
        let buckets = self.heads.len();
        if self.starts.len() > buckets && buckets < MOST_BUCKETS {
            *self = WindowTable::with_buckets(self.size, 4 * buckets)?;
        }
        Ok(())
    }

    /// Adds all windows of `cells`. Before that, a full table gets more buckets.
    ///
    /// # Errors
    ///
    /// `AllocError` if an allocation fails. The table then lacks windows.
    #[inline]
    pub(crate) fn complete(&mut self, cells: &[u32]) -> Result<(), AllocError> {
        self.grow()?;
        self.enter_all(cells)
    }
}

/// Sets the head of a bucket.
#[inline]
fn set_head(heads: &mut [u32], bucket: usize, head: u32) {
    heads[bucket] = head;
}

/// Returns a list of `count` zeros.
#[inline]
fn zeros(count: usize) -> Result<Vec<u32>, AllocError> {
    try_vec![0; count]
}

/// Returns the number of windows of `size` cells in `len` cells.
#[inline]
fn window_count(len: usize, size: usize) -> usize {
    if len < size {
        return 0;
    }
    len - size + 1
}
