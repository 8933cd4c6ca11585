//! The command `words`: a word list as a unit trie.
use crate::clap::ArgMatches;
use crate::host::*;
use crate::support::AllocError;
use crate::support::prelude::*;
use crate::ucptab_table::input::line_at;
use crate::ucptab_table::message::{line_message, push_quoted};
use crate::ucptrie::names::name_in;
use crate::ucptrie_inputs::compressed::{expect_line_feeds, expect_text};
use crate::ucptrie_inputs::error::{Error, about, said};
use crate::ucptrie_words::built::{trie_of_units, trie_of_words};
use crate::ucptrie_words::error::{RowsError, UnitsError, WordsError};
use crate::ucptrie_words::written::{Form, written};
use bekstaudi::char16trie::Char16Trie;

/// Returns the form that the arguments name.
fn form<'a>(matches: &ArgMatches<'a>) -> Form<'a> {
    let name = name_in(matches);
    match matches.get_str("as") {
        Some("icu") => Form::Icu,
        Some("c") => Form::C(name),
        Some("rust") => Form::Rust(name),
        Some("rust-static") => Form::RustStatic(name),
        _ => Form::Rows,
    }
}

/// Returns the fault of a word list that makes no trie. `name` is what it was read from.
fn unbuilt(name: &str, list: &[u8], fault: WordsError) -> Error {
    match fault {
        WordsError::Memory => Error::Memory,
        WordsError::TooLarge => about(name, fault),
        WordsError::Line(number, fault) => {
            let line = line_at(list, number).unwrap_or(&[]);
            said(line_message(name, number, fault.expected(), line))
        }
    }
}

/// Returns the trie of a file: of its words, or of its units if the arguments say that it has them.
fn trie<'f>(matches: &ArgMatches<'_>, name: &str, file: &'f [u8]) -> Result<Char16Trie<'f>, Error> {
    if matches.get_str("format") == Some("icu") {
        return match trie_of_units(file) {
            Ok(trie) => Ok(trie),
            Err(UnitsError::Memory) => Err(Error::Memory),
            Err(fault) => Err(about(name, fault)),
        };
    }
    expect_text(name, file)?;
    expect_line_feeds(name, file)?;
    match trie_of_words(file) {
        Ok(trie) => Ok(trie),
        Err(fault) => Err(unbuilt(name, file, fault)),
    }
}

/// Returns the line about a key that no line can have.
fn key_line(name: &str, key: &str) -> Result<String, AllocError> {
    let mut line = String::new();
    write!(line, "{name}: expected keys for lines KEY;VALUE, found ")?;
    push_quoted(&mut line, key.as_bytes())?;
    Ok(line)
}

/// Returns a trie in a form. `name` is what it was read from.
fn converted(name: &str, trie: &Char16Trie<'_>, form: Form<'_>) -> Result<Vec<u8>, Error> {
    if trie.data.is_empty() && !matches!(form, Form::Rows) {
        let why = "no words, and no units: UCharsTrie needs one word at least";
        return Err(about(name, why));
    }
    match written(trie, form) {
        Ok(bytes) => Ok(bytes),
        Err(RowsError::Memory) => Err(Error::Memory),
        Err(RowsError::Key(key)) => Err(said(key_line(name, &key))),
    }
}

/// Returns the trie of a file in the form that the arguments name. `name` is what the file was read
/// from.
pub fn word_list(matches: &ArgMatches<'_>, name: &str, file: &[u8]) -> Result<Vec<u8>, Error> {
    let trie = trie(matches, name, file)?;
    converted(name, &trie, form(matches))
}
