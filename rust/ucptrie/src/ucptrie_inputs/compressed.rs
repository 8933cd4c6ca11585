//! Input that has to be converted first: compressed files, UTF-16 and line ends of old systems.
use crate::host::*;
use crate::support::AllocError;
use crate::support::prelude::*;
use crate::ucd_files::compression::{Compression, compression_of};
use crate::ucptrie_inputs::error::{CompressedInput, Error, about, said};
use crate::ucptrie_inputs::streams::INPUT;
use crate::ucptrie_inputs::words::push_word;

/// Returns the program that compresses so, and the command that prints what such a file has.
fn programs(how: Compression) -> (&'static str, &'static str) {
    match how {
        Compression::Bzip2 => ("bzip2", "bzcat"),
        Compression::Gzip => ("gzip", "zcat"),
        Compression::Xz => ("xz", "xzcat"),
        Compression::Zip => ("zip", "unzip -p"),
        Compression::Zstd => ("zstd", "zstdcat"),
    }
}

/// Returns the line about a compressed input of a command: what to type instead.
pub fn compressed_line(command: &str, input: &CompressedInput) -> Result<String, AllocError> {
    let name = input.name.as_str();
    let (program, reader) = programs(input.how);
    let mut line = String::new();
    write!(line, "{name}: compressed by {program}: type {reader} ")?;
    push_word(&mut line, if name == INPUT { "FILE" } else { name })?;
    let option = input.option;
    write!(line, " | ucptrie {command} {option}-")?;
    Ok(line)
}

/// Returns the name of a compressed input, and how it is compressed.
fn compressed_input(
    name: &str,
    option: &'static str,
    how: Compression,
) -> Result<CompressedInput, AllocError> {
    let name = String::from_str(name)?;
    Ok(CompressedInput { name, how, option })
}

/// Returns a fault if bytes are compressed. `name` is what they were read from, and `option` is the
/// option before that name and a space, or nothing.
pub fn expect_decompressed(name: &str, option: &'static str, bytes: &[u8]) -> Result<(), Error> {
    match compression_of(bytes) {
        Some(how) => Err(Error::Compressed(compressed_input(name, option, how)?)),
        None => Ok(()),
    }
}

/// Returns a fault if bytes that are to be text are compressed or start as UTF-16. `name` is what
/// they were read from.
pub fn expect_text(name: &str, bytes: &[u8]) -> Result<(), Error> {
    expect_decompressed(name, "", bytes)?;
    if bytes.starts_with(b"\xfe\xff".as_slice()) || bytes.starts_with(b"\xff\xfe".as_slice()) {
        return Err(about(name, "found UTF-16: convert it to UTF-8"));
    }
    Ok(())
}

/// Returns a fault if the lines of a text end in CR alone: it has no LF, but CR before its end.
/// `name` is what it was read from.
pub fn expect_line_feeds(name: &str, text: &[u8]) -> Result<(), Error> {
    let body = text.strip_suffix(b"\r".as_slice()).unwrap_or(text);
    if body.contains(&b'\r') && !text.contains(&b'\n') {
        let why = "a CR has no LF after it: lines end with LF or CR LF";
        return Err(about(name, why));
    }
    Ok(())
}

/// Returns the number of the first line with a CR that no LF follows, counted from 1: a CR would
/// hide what comes after it, as in a comment.
fn line_with_cr(text: &[u8]) -> Option<u64> {
    let mut number = 1u64;
    let mut is_cr = false;
    for byte in text {
        if is_cr && *byte != b'\n' {
            return Some(number);
        }
        if *byte == b'\n' {
            number = number.saturating_add(1);
        }
        is_cr = *byte == b'\r';
    }
    if is_cr { Some(number) } else { None }
}

/// Returns the line about a CR in a line of an input.
fn cr_line(name: &str, number: u64) -> Result<String, AllocError> {
    let mut line = String::new();
    write!(
        line,
        "{name}:{number}: a CR has no LF after it: lines end with LF or CR LF"
    )?;
    Ok(line)
}

/// Returns a fault if bytes that are to be lines start as in another format, or if a CR has no LF
/// after it. `name` is what they were read from.
pub fn expect_lines(name: &str, bytes: &[u8]) -> Result<(), Error> {
    expect_text(name, bytes)?;
    match line_with_cr(bytes) {
        Some(number) => Err(said(cr_line(name, number))),
        None => Ok(()),
    }
}
