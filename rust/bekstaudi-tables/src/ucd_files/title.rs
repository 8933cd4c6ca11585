//! What a file says of itself: its name, its date, its version.

use crate::host::*;
use crate::support::prelude::*;
use crate::ucptab_table::rows::{before, trimmed};

/// Returns the title of a file of the Unicode Character Database, `Scripts-15.0.0.txt` for
/// `# Scripts-15.0.0.txt`: the first line without `# `, if it is a comment that ends in `.txt`.
pub fn title_of(input: &[u8]) -> Option<&[u8]> {
    let line = before(b'\r', before(b'\n', input));
    if line.starts_with(b"# ".as_slice()) && line.ends_with(b".txt".as_slice()) {
        Some(&line[2..])
    } else {
        None
    }
}

/// Returns what follows a mark at the start of a line, without blanks around it, or `None` if the
/// line does not start with the mark.
fn after_prefix<'t>(mark: &[u8], line: &'t [u8]) -> Option<&'t [u8]> {
    if line.starts_with(mark) {
        Some(trimmed(&line[mark.len()..]))
    } else {
        None
    }
}

/// Returns a line, without blanks around it, that has the version of ICU or of Unicode in a TOML
/// file of ICU's `icuexportdata`, or `None` for any other line.
fn version_of(line: &[u8]) -> Option<&[u8]> {
    let has_version = line.starts_with(b"icu_version = ".as_slice())
        || line.starts_with(b"unicode_version = ".as_slice());
    if has_version {
        Some(trimmed(line))
    } else {
        None
    }
}

/// Returns the version in a line of a file whose title has none, as `emoji-data.txt`: what follows
/// `# Used with `, or a line `# Version: ..` without `# `. Returns `None` for any other line.
fn edition_of(line: &[u8]) -> Option<&[u8]> {
    if line.starts_with(b"# Version: ".as_slice()) {
        return after_prefix(b"# ".as_slice(), line);
    }
    after_prefix(b"# Used with ".as_slice(), line)
}

/// Returns what a line says of its file, without blanks around it. In a file of the Unicode
/// Character Database it is what follows `# Date: `, and a version as in `# Version: 15.0` or
/// `# Used with Emoji Version 15.0`. In the TOML files that ICU's `icuexportdata`
/// writes, it is what follows `# file name: `, and the lines of `icu_version` and
/// `unicode_version`. Returns `None` for any other line.
pub fn note_of(line: &[u8]) -> Option<&[u8]> {
    if let Some(date) = after_prefix(b"# Date: ".as_slice(), line) {
        return Some(date);
    }
    if let Some(edition) = edition_of(line) {
        return Some(edition);
    }
    if let Some(name) = after_prefix(b"# file name: ".as_slice(), line) {
        return Some(name);
    }
    version_of(line)
}
