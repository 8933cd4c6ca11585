//! The engine of `ucptab`: reads rows, and prints the values of a trie that is built of them. For
//! `ucptrie`, `pattern` writes the texts of source.

use crate::host::*;
use crate::support::prelude::*;
pub mod digits;
pub mod error;
pub mod hint;
pub mod input;
pub mod message;
pub mod pattern;
pub mod rows;
pub mod streams;
pub mod text;
pub mod words;

use crate::ucptab_table::error::TableError;
use crate::ucptab_table::input::{read_all, read_shown_rows};
use crate::ucptab_table::streams::{Failed, Sink, Source};
use crate::ucptab_table::text::{answers_text, ranges_text, write_fault};
use crate::ucptab_table::words::{Request, asked_numbers, request_of};
use bekstaudi::codepointtrie::TrieType;
use bekstaudi::codepointtrie::Write;
use bekstaudi::codepointtrie::try_build_from_writes;

/// The arguments of the program.
pub const USAGE: &str = "usage: ucptab fast|small DEFAULT ERROR [HEX ..]\n";

/// Returns the lines of the asked numbers in a trie of these writes, or those of its ranges if no
/// number is asked.
fn answer_text(
    trie_type: TrieType,
    default: u32,
    error: u32,
    writes: &[Write<u32>],
    asked: &[u32],
) -> Result<String, TableError> {
    let trie = try_build_from_writes(default, error, trie_type, writes)?;
    if asked.is_empty() {
        Ok(ranges_text(&trie)?)
    } else {
        Ok(answers_text(asked, |n| trie.get32(n))?)
    }
}

/// Reads the table to its end. Returns the lines of the asked numbers, or those of all ranges of
/// equal values if no number is asked.
fn table_text<S: Source>(
    trie_type: TrieType,
    default: u32,
    error: u32,
    asked: &[u32],
    reader: &mut S,
) -> Result<String, TableError> {
    let input = read_all(reader)?;
    let writes = read_shown_rows(&input, reader)?;
    answer_text(trie_type, default, error, &writes, asked)
}

/// Reads the table to its end, and writes the lines of the asked numbers by one call, or those of
/// all ranges of equal values if no number is asked.
///
/// Every error but that of the write comes before a byte is written.
pub fn run<S: Source, W: Sink>(
    trie_type: TrieType,
    default: u32,
    error: u32,
    asked: &[u32],
    reader: &mut S,
    writer: &mut W,
) -> Result<(), TableError> {
    let text = table_text(trie_type, default, error, asked, reader)?;
    match writer.write(text.as_bytes()) {
        Ok(()) => Ok(()),
        Err(Failed) => Err(TableError::Write),
    }
}

/// Writes the usage line. If that fails, nothing else is done.
pub fn write_usage<W: Sink>(writer: &mut W) {
    let _ = writer.write(USAGE.as_bytes());
}

/// Does what a request asks for, as `run` does, after the words of its numbers are read.
fn answer<S: Source, W: Sink>(
    request: Request<'_>,
    reader: &mut S,
    writer: &mut W,
) -> Result<(), TableError> {
    let asked = asked_numbers(request.asked)?;
    run(
        request.trie_type,
        request.default,
        request.error,
        &asked,
        reader,
        writer,
    )
}

/// Runs the program with the words after its name, and returns its status.
///
/// The status is 0 if the values or the ranges are printed, 1 if the line of an error is, and 2 if
/// the usage line is. It is the same if that line can't be written.
pub fn run_words<S: Source, W: Sink>(words: &[String], reader: &mut S, writer: &mut W) -> u8 {
    let Some(request) = request_of(words) else {
        write_usage(writer);
        return 2;
    };
    match answer(request, reader, writer) {
        Ok(()) => 0,
        Err(fault) => {
            let _ = write_fault(writer, fault);
            1
        }
    }
}
