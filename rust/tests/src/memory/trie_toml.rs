//! Tries in TOML: which array of data is used, and failing allocations.

use crate::icu_trie::cptrie::CodePointTrie;
use crate::icu_trie::header::{CodePointTrieHeader, TrieType};
use crate::icu_trie_formats::trie_toml::{
    CodePointDataSlice, CodePointTrieToml, TomlError, TrieFromTomlError,
};
use crate::memory::support::{expect, expect_answers, expect_same, joined};
use crate::refusals::{each_refused, none_asked, say};
use crate::runtime::table_from_str;
use toml::value::Table;

/// 64 cells of 0.
const INDEX: &str = "index = [
    0, 0, 0, 0, 0, 0, 0, 0, 0, 0, 0, 0, 0, 0, 0, 0, 0, 0, 0, 0, 0, 0, 0, 0, 0, 0, 0, 0, 0, 0, 0, 0,
    0, 0, 0, 0, 0, 0, 0, 0, 0, 0, 0, 0, 0, 0, 0, 0, 0, 0, 0, 0, 0, 0, 0, 0, 0, 0, 0, 0, 0, 0, 0, 0,
]\n";

/// 64 cells of 5, the high value 7 and the error value 9.
const CELLS: &str = " = [
    5, 5, 5, 5, 5, 5, 5, 5, 5, 5, 5, 5, 5, 5, 5, 5, 5, 5, 5, 5, 5, 5, 5, 5, 5, 5, 5, 5, 5, 5, 5, 5,
    5, 5, 5, 5, 5, 5, 5, 5, 5, 5, 5, 5, 5, 5, 5, 5, 5, 5, 5, 5, 5, 5, 5, 5, 5, 5, 5, 5, 5, 5, 5, 5,
    7, 9,
]\n";

/// The numbers of the header.
const FIELDS: &str = "highStart = 4096
shifted12HighStart = 1
valueWidth = 2
index3NullOffset = 32767
dataNullOffset = 3
nullValue = 5\n";

/// The parts of a trie's table, which also has a name. If there are several arrays of data, the one
/// with the narrowest values is used.
const WHOLE: [&str; 5] = [
    INDEX,
    FIELDS,
    "type = 1\nname = \"planes\"\n",
    "data_32 = [1]\ndata_16 = [2]\ndata_8",
    CELLS,
];

/// The table of a text in parts, or `None` if an allocation fails.
fn table_of(parts: &[&str]) -> Option<Table> {
    let text = joined(parts)?;
    table_from_str(text.as_str()).ok()
}

/// Checks that the table was read. If an allocation failed, checks the error and says `refused`.
fn expect_read(read: Result<CodePointTrieToml, TomlError>) {
    match read {
        Ok(read) => expect_same(read.index_slice().len(), 64, "cells of the index"),
        Err(error) => {
            expect_same(error, TomlError::Memory, "the fault");
            say("refused");
        }
    }
}

/// A table and its copy, or `None` if an allocation fails.
fn two_tables() -> Option<(Table, Table)> {
    let table = table_of(&WHOLE)?;
    Some((table, table_of(&WHOLE)?))
}

/// Calls: `CodePointTrieToml::from_table`.
#[test]
fn from_table_refused() {
    each_refused(|| {
        let Some((table, copy)) = two_tables() else {
            return;
        };
        say("call");
        let read = CodePointTrieToml::from_table(&table);
        say("done");
        expect_read(read);
        expect(table == copy, "as it was");
    });
}

/// Checks the values of the trie. If an allocation failed, checks the error and says `refused`.
fn expect_trie(trie: Result<CodePointTrie<'_, u8>, TrieFromTomlError>) {
    match trie {
        Ok(trie) => expect_answers(trie, &[(0x41, 5), (0x1000, 7), (0x11_0000, 9)]),
        Err(error) => {
            expect_same(error, TrieFromTomlError::Memory, "the fault");
            say("refused");
        }
    }
}

/// The contents of a trie's table, or `None` if an allocation fails.
fn whole_read() -> Option<CodePointTrieToml> {
    let table = table_of(&WHOLE)?;
    CodePointTrieToml::from_table(&table).ok()
}

/// Calls: `CodePointTrie::try_from`.
#[test]
fn trie_from_toml_refused() {
    each_refused(|| {
        let Some(read) = whole_read() else {
            return;
        };
        say("call");
        let trie = CodePointTrie::<u8>::try_from(&read);
        say("done");
        expect_trie(trie);
        expect_same(parts_of(&read), PARTS, "as it was");
    });
}

/// The number of index cells in the table, whether its data are bytes, and its header.
fn parts_of(read: &CodePointTrieToml) -> (usize, bool, Option<CodePointTrieHeader>) {
    let is_bytes = matches!(read.data_slice(), Ok(CodePointDataSlice::U8(_)));
    let header = CodePointTrieHeader::try_from(read).ok();
    (read.index_slice().len(), is_bytes, header)
}

/// The expected `parts_of` of the table `WHOLE`.
const PARTS: (usize, bool, Option<CodePointTrieHeader>) = (64, true, Some(HEADER));

/// The header in the table `WHOLE`.
const HEADER: CodePointTrieHeader = CodePointTrieHeader {
    high_start: 4096,
    shifted12_high_start: 1,
    index3_null_offset: 32767,
    data_null_offset: 3,
    null_value: 5,
    trie_type: TrieType::Small,
};

/// Calls: `CodePointTrieToml::index_slice`, `CodePointTrieToml::data_slice`,
/// `CodePointTrieHeader::try_from`, `TrieType::try_from`.
#[test]
fn parts_quiet() {
    none_asked(|| {
        let Some(read) = whole_read() else {
            return;
        };
        say("call");
        let found = parts_of(&read);
        let fast = TrieType::try_from(0);
        say("done");
        expect_same(found, PARTS, "the parts");
        expect_same(fast.ok(), Some(TrieType::Fast), "the type");
    });
}
