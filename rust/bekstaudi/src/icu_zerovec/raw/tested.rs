//! Bodies with one test of an index, in forms that rustc optimizes well.

use crate::support::prelude::*;
/// Returns cell `i` of cells of `WIDTH` bytes.
#[inline(always)]
fn cell_at_of<const WIDTH: usize>(bytes: &[u8], i: usize) -> &[u8] {
    let cells = bytes.as_chunks::<WIDTH>().0;
    if i < cells.len() {
        cells[i].as_slice()
    } else {
        unreachable!()
    }
}

/// Returns cell `i` of cells of `width` bytes.
#[inline(always)]
pub(crate) fn cell_at(bytes: &[u8], width: usize, i: usize) -> &[u8] {
    match width {
        1 => cell_at_of::<1>(bytes, i),
        2 => cell_at_of::<2>(bytes, i),
        3 => cell_at_of::<3>(bytes, i),
        _ => cell_at_of::<4>(bytes, i),
    }
}

/// Returns cell `i` of cells of `WIDTH` bytes, or `None` if there is none.
#[inline(always)]
fn cell_of<const WIDTH: usize>(bytes: &[u8], i: usize) -> Option<&[u8]> {
    match bytes.as_chunks::<WIDTH>().0.get(i) {
        Some(cell) => Some(cell.as_slice()),
        None => None,
    }
}

/// Tells the compiler that the path on which it is called is rare.
#[cold]
#[inline(always)]
fn rare() {}

/// Returns what [`cell_of`] returns, for an index that usually has a cell: that path comes first in
/// machine code.
#[inline(always)]
fn likely_cell_of<const WIDTH: usize>(bytes: &[u8], i: usize) -> Option<&[u8]> {
    let cells = bytes.as_chunks::<WIDTH>().0;
    if i < cells.len() {
        Some(cells[i].as_slice())
    } else {
        rare();
        None
    }
}

/// Returns cell `i` of cells of `width` bytes, or `None` if there is none. If `is_inside` is true, there
/// must be one; the test is the same.
#[inline(always)]
pub(crate) fn cell_known(bytes: &[u8], width: usize, i: usize, is_inside: bool) -> Option<&[u8]> {
    let _ = is_inside;
    match width {
        1 => cell_of::<1>(bytes, i),
        2 => cell_of::<2>(bytes, i),
        3 => cell_of::<3>(bytes, i),
        _ => cell_of::<4>(bytes, i),
    }
}

/// Returns cell `i` of the first `end` cells of `WIDTH` bytes, or `None` if `i` is not less than `end`.
/// The only test is that of a slice that ends there.
#[inline(always)]
fn cell_below_of<const WIDTH: usize>(bytes: &[u8], end: usize, i: usize) -> Option<&[u8]> {
    let front = bytes.len().min(end * WIDTH);
    cell_of::<WIDTH>(&bytes[..front], i)
}

/// Returns cell `i` of the first `end` cells of `width` bytes, or `None` if `i` is not less than `end`.
#[inline(always)]
pub(crate) fn cell_below(bytes: &[u8], width: usize, end: usize, i: usize) -> Option<&[u8]> {
    match width {
        1 => cell_below_of::<1>(bytes, end, i),
        2 => cell_below_of::<2>(bytes, end, i),
        3 => cell_below_of::<3>(bytes, end, i),
        _ => cell_below_of::<4>(bytes, end, i),
    }
}

/// Returns what [`cell_below_of`] returns. The path on which there is a cell comes first in machine
/// code.
#[inline(always)]
fn likely_cell_below_of<const WIDTH: usize>(bytes: &[u8], end: usize, i: usize) -> Option<&[u8]> {
    let front = bytes.len().min(end * WIDTH);
    likely_cell_of::<WIDTH>(&bytes[..front], i)
}

/// Returns what [`cell_below`] returns, for an index that is usually less than `end`.
#[inline(always)]
pub(crate) fn likely_cell_below(bytes: &[u8], width: usize, end: usize, i: usize) -> Option<&[u8]> {
    match width {
        1 => likely_cell_below_of::<1>(bytes, end, i),
        2 => likely_cell_below_of::<2>(bytes, end, i),
        3 => likely_cell_below_of::<3>(bytes, end, i),
        _ => likely_cell_below_of::<4>(bytes, end, i),
    }
}
