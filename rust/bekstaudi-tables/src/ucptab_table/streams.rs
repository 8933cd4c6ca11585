//! The streams that a table is read from and its lines are written to.

use crate::host::*;
use crate::support::prelude::*;
use crate::ucptab_table::error::RowError;

/// A read or a write failed.
#[derive(Clone, Copy, Debug, PartialEq, Eq)]
pub struct Failed;

/// A stream to read from.
pub trait Source {
    /// Fills a prefix of `buf`, and returns its length. If `buf` is not empty, 0 means the end of
    /// the stream.
    ///
    /// # Errors
    /// Returns [`Failed`] if the read fails. It may have lost bytes.
    fn read(&mut self, buf: &mut [u8]) -> Result<usize, Failed>;

    /// Is called with the first line that is not a row, its number, counted from 1, and its fault.
    /// What is left to read stays the same.
    fn note_fault(&mut self, number: u64, line: &[u8], fault: RowError);
}

/// A stream to write to.
pub trait Sink {
    /// Writes all of `buf`.
    ///
    /// # Errors
    /// Returns [`Failed`] if the write fails. Any prefix of `buf` may have been written.
    fn write(&mut self, buf: &[u8]) -> Result<(), Failed>;
}
