//! Tries inside other files, as in ICU's data files.
use crate::clap::ArgMatches;
use crate::host::*;
use crate::support::AllocError;
use crate::support::prelude::*;
use crate::ucptrie_inputs::error::{Error, about, said};
use crate::ucptrie_inputs::number;

/// How many offsets a message lists at most.
const LISTED: usize = 32;

/// Where a trie starts in a file.
#[derive(Clone, Copy)]
pub enum Start {
    /// At this offset.
    At(u32),
    /// At that of the only trie. If there are several, `--offset` chooses one.
    Found,
    /// At that of the only trie, for a command without `--offset`.
    Only,
}

/// Returns where the arguments of a command with `--offset` say that a trie starts.
pub fn start_of(matches: &ArgMatches<'_>) -> Start {
    match number(matches, "offset") {
        Some(offset) => Start::At(offset),
        None => Start::Found,
    }
}

/// Returns whether bytes start with the signature of the binary form, in one of the byte orders.
pub fn starts_trie(bytes: &[u8]) -> bool {
    bytes.starts_with(b"Tri3".as_slice()) || bytes.starts_with(b"3irT".as_slice())
}

/// Returns the offsets of signatures, which are multiples of four.
fn offsets_of(bytes: &[u8]) -> Result<Vec<usize>, AllocError> {
    let mut offsets = Vec::new();
    for k in 0..bytes.len() / 4 {
        if starts_trie(&bytes[4 * k..]) {
            offsets.try_push(4 * k)?;
        }
    }
    Ok(offsets)
}

/// Returns whether a file that is no text has a trie in it.
pub fn has_tries(bytes: &[u8]) -> bool {
    if str::from_utf8(bytes).is_ok() {
        return false;
    }
    for k in 0..bytes.len() / 4 {
        if starts_trie(&bytes[4 * k..]) {
            return true;
        }
    }
    false
}

/// Appends offsets.
fn push_offsets(line: &mut String, offsets: &[usize]) -> Result<(), AllocError> {
    for offset in offsets {
        write!(line, " {offset}")?;
    }
    Ok(())
}

/// Returns the line about a file with several tries.
fn several_line(name: &str, offsets: &[usize], start: Start) -> Result<String, AllocError> {
    let mut line = String::new();
    let count = offsets.len();
    let how = match start {
        Start::Only => "write one by ucptrie convert --offset",
        _ => "choose one by --offset",
    };
    write!(line, "{name}: {count} tries, {how}:")?;
    push_offsets(&mut line, offsets.get(..LISTED).unwrap_or(offsets))?;
    if count > LISTED {
        line.try_push_str(" ..")?;
    }
    Ok(line)
}

/// Returns the part of a file that starts with a trie: from the given offset on, or else the file
/// itself if it is text or starts with a trie, or else from its only trie on. `name` is what the
/// file is called.
pub fn from_trie<'b>(name: &str, bytes: &'b [u8], start: Start) -> Result<&'b [u8], Error> {
    if let Start::At(offset) = start {
        return match bytes.get(offset as usize..) {
            Some(part) => Ok(part),
            None => Err(about(name, "the offset is beyond the end")),
        };
    }
    if starts_trie(bytes) || str::from_utf8(bytes).is_ok() {
        return Ok(bytes);
    }
    let offsets = offsets_of(bytes)?;
    match offsets.as_slice() {
        [] => Ok(bytes),
        [offset] => Ok(bytes.get(*offset..).unwrap_or(bytes)),
        _ => Err(said(several_line(name, &offsets, start))),
    }
}
