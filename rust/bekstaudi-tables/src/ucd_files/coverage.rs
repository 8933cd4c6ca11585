//! Which code points have a value in a file.

use crate::host::*;
use crate::support::prelude::*;
use crate::ucd_files::error::FileError;
use crate::ucd_files::names::Numbering;
use crate::ucd_files::read::read_writes;
use crate::ucd_files::statement::Columns;
use bekstaudi::codepointinvlist::{CodePointInversionList, CodePointInversionListBuilder};
use bekstaudi::codepointtrie::Write;
use bekstaudi::zerovec::{CODE_POINT_LIMIT, MemoryError};

/// Adds the code points that a write covers.
fn add_covered(
    points: &mut CodePointInversionListBuilder,
    write: &Write<u32>,
) -> Result<(), MemoryError> {
    let (first, last) = match write {
        Write::One(code_point, _) => (*code_point, *code_point),
        Write::Range(range, _) => (*range.start(), *range.end()),
    };
    points.try_add_range32(first..last.min(CODE_POINT_LIMIT - 1) + 1)
}

/// Returns the set of the code points that have a value after writes.
///
/// # Errors
/// Returns [`MemoryError`] if an allocation fails.
fn points_with_value(
    writes: &[Write<u32>],
) -> Result<CodePointInversionList<'static>, MemoryError> {
    let mut points = CodePointInversionListBuilder::new();
    let mut rest = writes;
    while let [write, after @ ..] = rest {
        add_covered(&mut points, write)?;
        rest = after;
    }
    points.try_build()
}

/// Returns whether each code point has a value after writes.
fn cover_all(writes: &[Write<u32>]) -> Result<bool, MemoryError> {
    let points = points_with_value(writes)?;
    Ok(points.contains_set(&CodePointInversionList::all()))
}

/// Returns whether each code point has a value by a line of a file, which can be an `@missing`
/// line.
///
/// # Errors
/// Returns those of [`read_writes`].
pub(crate) fn lines_cover_all(
    input: &[u8],
    columns: Columns<'_>,
    numbering: Numbering<'_>,
) -> Result<bool, FileError> {
    let writes = read_writes(input, columns, numbering)?;
    let all = cover_all(&writes)?;
    Ok(all)
}
