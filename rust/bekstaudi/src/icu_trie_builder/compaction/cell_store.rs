//! Stores cells, finds blocks among them and appends blocks to them.

use crate::icu_trie_builder::compaction::blocks::overlap;
use crate::icu_trie_builder::compaction::hashing::hash_of;
use crate::icu_trie_builder::compaction::window_table::WindowTable;
use crate::icu_trie_builder::error::BuildError;
use crate::support::AllocError;
use crate::support::prelude::*;

/// The cells stored so far, fewer than 2^30. A block can be found among them or appended.
pub(crate) struct CellStore {
    /// The cells.
    cells: Vec<u32>,
    /// For each length of block that was looked for, a table of the windows of `cells`.
    tables: Vec<WindowTable>,
}

/// Returns the index of the table for windows of `size` cells. If there is none, adds an empty one
/// with enough buckets for the windows of `cells` cells.
fn table_index(
    tables: &mut Vec<WindowTable>,
    size: usize,
    cells: usize,
) -> Result<usize, AllocError> {
    for i in 0..tables.len() {
        if tables[i].size() == size {
            return Ok(i);
        }
    }
    let table = WindowTable::for_cells(size, cells)?;
    tables.try_push(table)?;
    Ok(tables.len() - 1)
}

impl CellStore {
    /// Makes a store of these cells.
    #[inline]
    pub(crate) fn new(cells: Vec<u32>) -> CellStore {
        CellStore {
            cells,
            tables: Vec::new(),
        }
    }

    /// Returns the cells.
    #[inline]
    pub(crate) fn cells(&self) -> &[u32] {
        &self.cells
    }

    /// Returns the cells as a list of their own.
    #[inline]
    pub(crate) fn into_cells(self) -> Vec<u32> {
        self.cells
    }

    /// Returns the first position at which `wanted` occurs, or `None` if it does not occur.
    ///
    /// # Errors
    ///
    /// `AllocError` if an allocation fails.
    #[inline]
    pub(crate) fn find(&mut self, wanted: &[u32]) -> Result<Option<usize>, AllocError> {
        let i = table_index(&mut self.tables, wanted.len(), self.cells.len())?;
        let table = &mut self.tables[i];
        table.complete(&self.cells)?;
        Ok(table.find(&self.cells, wanted, hash_of(wanted)))
    }

    /// Returns the first position at which `wanted` occurs. If it does not occur, appends it first,
    /// overlapping the longest tail of the cells that equals a prefix of it.
    ///
    /// # Errors
    ///
    /// - `TooLarge` if `wanted` does not occur and would start above `limit`.
    /// - `Memory` if an allocation fails.
    pub(crate) fn place(&mut self, wanted: &[u32], limit: usize) -> Result<usize, BuildError> {
        if let Some(at) = self.find(wanted)? {
            return Ok(at);
        }
        let common = overlap(&self.cells, wanted);
        let at = self.cells.len() - common;
        if at > limit {
            return Err(BuildError::TooLarge);
        }
        self.cells.try_extend_from_slice(&wanted[common..])?;
        Ok(at)
    }
}
