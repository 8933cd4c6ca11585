//! The fields of a line.

use crate::host::*;
use crate::support::prelude::*;
use crate::ucptab_table::rows::{after, before, content_of, trimmed};

/// Returns part `n` of a line's content, counted from 0, without blanks around it: empty if the
/// line has fewer parts.
fn part(separator: u8, n: usize, content: &[u8]) -> &[u8] {
    let mut rest = content;
    for _ in 0..n {
        rest = after(separator, rest);
    }
    trimmed(before(separator, rest))
}

/// Returns field `n` of a line's content, counted from 0, without blanks around it: empty if the
/// line has fewer fields. Fields are separated by semicolons.
pub fn field(n: usize, content: &[u8]) -> &[u8] {
    part(b';', n, content)
}

/// Returns whether a line's content has field `n`, counted from 0.
pub fn has_field(n: usize, content: &[u8]) -> bool {
    n <= content.iter().filter(|byte| **byte == b';').count()
}

/// Returns column `n` of a line of Unihan, counted from 0, without blanks around it: empty if the
/// line has fewer columns. Columns are separated by tabs.
pub fn column(n: usize, content: &[u8]) -> &[u8] {
    part(b'\t', n, content)
}

/// Returns what follows `U+` in a text that starts with it, or `None` for any other text.
pub fn after_mark(text: &[u8]) -> Option<&[u8]> {
    if text.starts_with(b"U+".as_slice()) {
        Some(&text[2..])
    } else {
        None
    }
}

/// Returns what follows `# @missing:` in a line that starts with it, without a further comment and
/// without blanks around it. Returns `None` for any other line.
pub fn missing_of(line: &[u8]) -> Option<&[u8]> {
    let mark = b"# @missing:".as_slice();
    if line.starts_with(mark) {
        Some(content_of(&line[mark.len()..]))
    } else {
        None
    }
}

/// Returns whether the name in field 1 ends in `, First>`: in `UnicodeData.txt`, the line has the
/// first code point of a range, and the next line has the last one.
pub fn ends_in_first(content: &[u8]) -> bool {
    field(1, content).ends_with(b", First>".as_slice())
}

/// Returns whether the name in field 1 ends in `, Last>`.
pub fn ends_in_last(content: &[u8]) -> bool {
    field(1, content).ends_with(b", Last>".as_slice())
}

/// Returns whether a text ends as the name of the first or the last code point of a range in two
/// lines: in `, First>` or `, Last>`.
pub fn marks_range(text: &[u8]) -> bool {
    text.ends_with(b", First>".as_slice()) || text.ends_with(b", Last>".as_slice())
}
