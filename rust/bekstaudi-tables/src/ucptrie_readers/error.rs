//! Why a file has no table.

use crate::host::*;
use crate::support::AllocError;
use crate::support::prelude::*;
use crate::ucd_files::error::FileError;
use crate::ucptrie_tables::compare::line_feeds;
use crate::ucptrie_tables::error::TableBuildError;
use bekstaudi::codepointtrie::binary::{BinaryError, SwappedError};
use bekstaudi::codepointtrie::json::TrieJsonError;
use bekstaudi::codepointtrie::trie_toml::{TomlError, TrieFromTomlError};
use core::{error, fmt};

/// Why a file of the Unicode Character Database makes no table.
#[derive(Debug)]
pub enum UnicodeFileError {
    /// A line of the file has a fault, or the file is not complete.
    File(FileError),
    /// What its lines say makes no table.
    Build(TableBuildError),
}

impl From<FileError> for UnicodeFileError {
    fn from(error: FileError) -> UnicodeFileError {
        UnicodeFileError::File(error)
    }
}

impl From<TableBuildError> for UnicodeFileError {
    fn from(error: TableBuildError) -> UnicodeFileError {
        UnicodeFileError::Build(error)
    }
}

impl From<AllocError> for UnicodeFileError {
    fn from(_error: AllocError) -> UnicodeFileError {
        UnicodeFileError::File(FileError::Memory)
    }
}

/// Why a text is not TOML, and in which line, counted from 1.
#[derive(Clone, Copy, Debug, PartialEq, Eq)]
pub struct TomlFileError {
    line: usize,
    error: crate::toml::de::Error,
}

/// Returns the line of a text that has the byte at an index, counted from 1.
fn line_at(text: &str, index: usize) -> usize {
    line_feeds(&text.as_bytes()[..index.min(text.len())]) + 1
}

impl TomlFileError {
    /// Returns the fault of a text, with its line.
    pub(crate) fn new(text: &str, error: crate::toml::de::Error) -> TomlFileError {
        let start = match error.span() {
            Some(span) => span.start,
            None => 0,
        };
        let line = line_at(text, start);
        TomlFileError { line, error }
    }

    /// Returns the line, counted from 1.
    pub fn line(&self) -> usize {
        self.line
    }

    /// Returns what is wrong with it.
    pub fn message(&self) -> &str {
        self.error.message()
    }
}

/// Writes the line and the message, without a line feed.
impl fmt::Display for TomlFileError {
    fn fmt(&self, f: &mut fmt::Formatter<'_>) -> fmt::Result {
        let (line, message) = (self.line, self.message());
        write!(f, "line {line}: {message}")
    }
}

impl error::Error for TomlFileError {}

/// Why a file has no table.
#[derive(Debug)]
pub enum ReadError {
    /// It has the signature of ICU's binary form, and is not a trie in it.
    Binary(BinaryError),
    /// It has no signature, and is not a text in UTF-8.
    Text,
    /// It starts with `{`, and is not JSON.
    Json(crate::serde_json::Error),
    /// Its JSON is not a trie.
    TrieJson(TrieJsonError),
    /// It is not TOML, nor in any of the other forms.
    Toml(TomlFileError),
    /// Its TOML is not a trie.
    TrieToml(TrieFromTomlError),
    /// An allocation failed.
    Memory,
}

impl From<BinaryError> for ReadError {
    fn from(error: BinaryError) -> ReadError {
        ReadError::Binary(error)
    }
}

impl From<SwappedError> for ReadError {
    fn from(error: SwappedError) -> ReadError {
        match error {
            SwappedError::Binary(error) => ReadError::Binary(error),
            _ => ReadError::Memory,
        }
    }
}

impl From<crate::serde_json::Error> for ReadError {
    fn from(error: crate::serde_json::Error) -> ReadError {
        if error.is_memory() {
            return ReadError::Memory;
        }
        ReadError::Json(error)
    }
}

impl From<TrieJsonError> for ReadError {
    fn from(error: TrieJsonError) -> ReadError {
        match error {
            TrieJsonError::Memory => ReadError::Memory,
            _ => ReadError::TrieJson(error),
        }
    }
}

impl From<TomlError> for ReadError {
    fn from(error: TomlError) -> ReadError {
        ReadError::from(TrieFromTomlError::from(error))
    }
}

impl From<TrieFromTomlError> for ReadError {
    fn from(error: TrieFromTomlError) -> ReadError {
        match error {
            TrieFromTomlError::Memory => ReadError::Memory,
            _ => ReadError::TrieToml(error),
        }
    }
}

impl core::fmt::Display for UnicodeFileError {
    fn fmt(&self, f: &mut core::fmt::Formatter<'_>) -> core::fmt::Result {
        match self {
            UnicodeFileError::File(field) => write!(f, "{field}"),
            UnicodeFileError::Build(field) => write!(f, "{field}"),
        }
    }
}

impl core::error::Error for UnicodeFileError {}

impl core::fmt::Display for ReadError {
    fn fmt(&self, f: &mut core::fmt::Formatter<'_>) -> core::fmt::Result {
        match self {
            ReadError::Binary(field) => write!(f, "not a trie in ICU's binary form: {field}"),
            ReadError::Text => {
                f.write_str("neither a trie in ICU's binary form nor a text in UTF-8")
            }
            ReadError::Json(field) => write!(f, "not JSON: {field}"),
            ReadError::TrieJson(field) => write!(f, "the JSON is not a trie: {field}"),
            ReadError::Toml(field) => write!(f, "not TOML: {field}"),
            ReadError::TrieToml(field) => write!(f, "the TOML is not a trie: {field}"),
            ReadError::Memory => f.write_str("no memory"),
        }
    }
}

impl core::error::Error for ReadError {}
