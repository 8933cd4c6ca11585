//! A file with its TOML, which is parsed once for all that is read from it.

use crate::host::*;
use crate::support::prelude::*;
use crate::ucptrie_readers::error::ReadError;
use crate::ucptrie_readers::read::{file_of_toml, toml_text};

/// A file, and its TOML if it is taken for TOML.
pub struct ParsedFile<'f> {
    bytes: &'f [u8],
    toml: Option<crate::toml::Table>,
}

impl<'f> ParsedFile<'f> {
    /// Parses a file if it is taken for TOML.
    ///
    /// # Errors
    /// Returns [`ReadError::Toml`] if the text is not TOML, and [`ReadError::Memory`] if an
    /// allocation fails.
    pub fn new(bytes: &'f [u8]) -> Result<ParsedFile<'f>, ReadError> {
        let toml = match toml_text(bytes) {
            Some(text) => Some(file_of_toml(text)?),
            None => None,
        };
        Ok(ParsedFile { bytes, toml })
    }

    /// Returns the bytes of the file.
    pub fn bytes(&self) -> &'f [u8] {
        self.bytes
    }

    /// Returns the TOML of the file, or `None` if it is not taken for TOML.
    pub fn toml(&self) -> Option<&crate::toml::Table> {
        self.toml.as_ref()
    }
}
