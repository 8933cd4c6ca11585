//! Tables of TOML that have no trie: the first fault of the table, or the fault of the parts in it.

use bekstaudi::codepointtrie::trie_toml::{CodePointTrieToml, TomlError, TrieFromTomlError};
use bekstaudi::codepointtrie::{CodePointTrie, CodePointTrieError};
use toml::value::Table;

/// 64 cells of 0.
const INDEX: &str = "index = [
    0, 0, 0, 0, 0, 0, 0, 0, 0, 0, 0, 0, 0, 0, 0, 0, 0, 0, 0, 0, 0, 0, 0, 0, 0, 0, 0, 0, 0, 0, 0, 0,
    0, 0, 0, 0, 0, 0, 0, 0, 0, 0, 0, 0, 0, 0, 0, 0, 0, 0, 0, 0, 0, 0, 0, 0, 0, 0, 0, 0, 0, 0, 0, 0,
]\n";

/// The numbers of the header.
const FIELDS: &str = "highStart = 4096
shifted12HighStart = 1
valueWidth = 2
index3NullOffset = 32767
dataNullOffset = 3
nullValue = 5\n";

/// Returns the table of a text in parts.
fn table_of(parts: &[&str]) -> Table {
    toml::from_str(&parts.concat()).expect("no table")
}

/// Returns the trie of a table, or the error.
fn trie_of_table(table: &Table) -> Result<CodePointTrie<'static, u8>, TrieFromTomlError> {
    CodePointTrie::try_from(&CodePointTrieToml::from_table(table)?)
}

/// The parts of tables that have no trie, with the error: the first fault of the table, or the
/// fault of the parts in it.
static FAULTS: [(&[&str], TrieFromTomlError); 17] = [
    (
        &[FIELDS, "type = 1\n"],
        TrieFromTomlError::Table(TomlError::Missing("index")),
    ),
    (
        &["index = [65536]\ndata_8 = [256]"],
        TrieFromTomlError::Table(TomlError::OutOfRange("index")),
    ),
    (
        &["index = 7"],
        TrieFromTomlError::Table(TomlError::OutOfRange("index")),
    ),
    (
        &["index = [-1]"],
        TrieFromTomlError::Table(TomlError::OutOfRange("index")),
    ),
    (
        &["index = \"x\""],
        TrieFromTomlError::Table(TomlError::OutOfRange("index")),
    ),
    (
        &[INDEX, "data_8 = [256]"],
        TrieFromTomlError::Table(TomlError::OutOfRange("data_8")),
    ),
    (
        &[INDEX, "highStart = -1"],
        TrieFromTomlError::Table(TomlError::OutOfRange("highStart")),
    ),
    (
        &[INDEX, "highStart = 4294967296"],
        TrieFromTomlError::Table(TomlError::OutOfRange("highStart")),
    ),
    (
        &[INDEX, "data_8 = [255, 256]"],
        TrieFromTomlError::Table(TomlError::OutOfRange("data_8")),
    ),
    (
        &[INDEX, "data_32 = [4294967296]"],
        TrieFromTomlError::Table(TomlError::OutOfRange("data_32")),
    ),
    (
        &[INDEX],
        TrieFromTomlError::Table(TomlError::Missing("highStart")),
    ),
    (
        &[INDEX, FIELDS],
        TrieFromTomlError::Table(TomlError::Missing("type")),
    ),
    (
        &[INDEX, FIELDS, "type = 256"],
        TrieFromTomlError::Table(TomlError::OutOfRange("type")),
    ),
    (
        &[INDEX, FIELDS, "type = 2\n"],
        TrieFromTomlError::Trie(CodePointTrieError::FromDeserialized {
            reason: "Cannot parse value for trie_type",
        }),
    ),
    (
        &[INDEX, FIELDS, "type = 1\n"],
        TrieFromTomlError::Trie(CodePointTrieError::FromDeserialized {
            reason: "Did not find data array for CodePointTrie in TOML",
        }),
    ),
    (
        &[INDEX, FIELDS, "type = 1\ndata_16 = [300]\n"],
        TrieFromTomlError::Trie(CodePointTrieError::FromDeserialized {
            reason: "Could not parse data array to typed array",
        }),
    ),
    (
        &["index = []\n", FIELDS, "type = 1\ndata_16 = [5]\n"],
        TrieFromTomlError::Trie(CodePointTrieError::IndexTooShortForFastAccess),
    ),
];

/// A fault of the table is returned as such, and `?` converts it into an error of the trie.
#[test]
fn tables_of_no_trie() {
    for (parts, fault) in &FAULTS {
        assert_eq!(trie_of_table(&table_of(parts)), Err(*fault), "{parts:?}");
    }
}

/// The keys of the numbers in order, each with two lines. The first has a number that is accepted,
/// which is the greatest one except for `type`. The second has a number that is too large.
const NUMBERS: [(&str, &str, &str); 7] = [
    (
        "highStart",
        "highStart = 4294967295\n",
        "highStart = 4294967296\n",
    ),
    (
        "shifted12HighStart",
        "shifted12HighStart = 65535\n",
        "shifted12HighStart = 65536\n",
    ),
    ("type", "type = 0\n", "type = 256\n"),
    ("valueWidth", "valueWidth = 255\n", "valueWidth = 256\n"),
    (
        "index3NullOffset",
        "index3NullOffset = 65535\n",
        "index3NullOffset = 65536\n",
    ),
    (
        "dataNullOffset",
        "dataNullOffset = 4294967295\n",
        "dataNullOffset = 4294967296\n",
    ),
    (
        "nullValue",
        "nullValue = 4294967295\n",
        "nullValue = 4294967296\n",
    ),
];

/// Returns the error of reading a table with an empty index, which is enough if a number is rejected
/// first. Its numbers are accepted, except that number `place` has this line.
fn fault_with(place: usize, line: &str) -> Option<TomlError> {
    let mut lines = NUMBERS.map(|(_, accepted, _)| accepted).to_vec();
    lines[place] = line;
    let table = table_of(&[&["index = []\n"][..], &lines].concat());
    CodePointTrieToml::from_table(&table).err()
}

/// The error names the first number that is missing or out of range, and all numbers before it are
/// accepted.
#[test]
fn numbers_that_are_missing_or_too_large() {
    for (place, (key, _, too_large)) in NUMBERS.into_iter().enumerate() {
        assert_eq!(fault_with(place, ""), Some(TomlError::Missing(key)));
        assert_eq!(
            fault_with(place, too_large),
            Some(TomlError::OutOfRange(key))
        );
    }
}
