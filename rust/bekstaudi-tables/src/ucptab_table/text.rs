//! The lines that are printed.

use crate::host::*;
use crate::support::AllocError;
use crate::support::prelude::*;
use crate::ucptab_table::error::TableError;
use crate::ucptab_table::streams::{Failed, Sink};
use bekstaudi::codepointtrie::CodePointMapRange;
use bekstaudi::codepointtrie::CodePointTrie;

/// Appends the line of an asked number: the number, in at least four hexadecimal digits, and its
/// value.
fn push_answer(text: &mut String, asked: u32, answer: u32) -> Result<(), AllocError> {
    writeln!(text, "{asked:04X};{answer}")
}

/// Returns the lines of the asked numbers, in order, each with what `answer` returns for it.
///
/// # Errors
/// Returns [`AllocError`] if an allocation fails.
pub fn answers_text<F: Fn(u32) -> u32>(asked: &[u32], answer: F) -> Result<String, AllocError> {
    let mut text = String::new();
    for n in asked {
        push_answer(&mut text, *n, answer(*n))?;
    }
    Ok(text)
}

/// Appends a number in at least four hexadecimal digits, and two dots.
///
/// # Errors
/// Returns [`AllocError`] if an allocation fails.
pub fn push_dotted(text: &mut String, n: u32) -> Result<(), AllocError> {
    write!(text, "{n:04X}..")
}

/// Appends the line of a range: its first and its last code point, or one if they are equal, and
/// its value. Code points have at least four hexadecimal digits.
fn push_range(text: &mut String, range: &CodePointMapRange<u32>) -> Result<(), AllocError> {
    let (first, last) = (*range.range.start(), *range.range.end());
    if first < last {
        push_dotted(text, first)?;
        push_answer(text, last, range.value)
    } else {
        push_answer(text, last, range.value)
    }
}

/// Returns the lines of all ranges of the trie, in order. If the trie is coherent, they are the
/// maximal runs of its values.
///
/// # Errors
/// Returns [`AllocError`] if an allocation fails.
pub fn ranges_text(trie: &CodePointTrie<'_, u32>) -> Result<String, AllocError> {
    let mut text = String::new();
    for range in trie.iter_ranges() {
        push_range(&mut text, &range)?;
    }
    Ok(text)
}

/// Writes a number in decimal digits. Allocates nothing.
fn write_decimal<W: Sink>(sink: &mut W, n: u64) -> Result<(), Failed> {
    if n < 10 {
        return sink.write(&[b'0' + n as u8]);
    }
    write_decimal(sink, n / 10)?;
    sink.write(&[b'0' + (n % 10) as u8])
}

/// Writes the line of an error. Allocates nothing.
pub fn write_fault<W: Sink>(sink: &mut W, fault: TableError) -> Result<(), Failed> {
    match fault {
        TableError::Row(number, fault) => {
            sink.write(b"line ")?;
            write_decimal(sink, number)?;
            sink.write(b": ")?;
            sink.write(fault.text().as_bytes())?;
        }
        TableError::TooLarge => sink.write(b"too large")?,
        TableError::Memory => sink.write(b"no memory")?,
        TableError::Read => sink.write(b"read fault")?,
        TableError::Write => sink.write(b"write fault")?,
    }
    sink.write(b"\n")
}
