//! x

use bekstaudi::char16trie::{AddError, BuildError, SortedError};
use bekstaudi::codepointinvlist::{InvalidSetError, RangeError, SetError, TryRangeError};
use bekstaudi::codepointtrie;
use bekstaudi::codepointtrie::binary::{BinaryError, SwappedError, WriteError};
use bekstaudi::codepointtrie::{ApplyRefused, CodePointTrieError, MapError};
use bekstaudi::zerovec::MemoryError;
use bekstaudi::zerovec::ule::UleError;
use std::fmt::Display;

/// Expects each error to have this text.
fn expect_texts(rows: &[(&dyn Display, &str)]) {
    for (error, text) in rows {
        assert_eq!(error.to_string(), *text);
    }
}

#[test]
fn packed_vectors() {
    let multiple = "the number of bytes is no multiple of the width of a value";
    expect_texts(&[
        (&MemoryError, "no memory"),
        (&UleError::Cell(3), "cell 3 is no value"),
        (&UleError::Length, multiple),
    ]);
}

#[test]
fn unit_tries() {
    expect_texts(&[
        (&AddError::KeyTooLong, "key too long"),
        (&AddError::Duplicate, "duplicate key"),
        (&AddError::Memory, "no memory"),
        (&BuildError::TooLarge, "too large"),
        (&BuildError::Entry(AddError::Duplicate), "duplicate key"),
        (&BuildError::Memory, "no memory"),
        (&SortedError::KeyTooLong(0), "key 0 too long"),
        (&SortedError::NotAscending(12), "key 12 not ascending"),
        (&SortedError::TooLarge, "too large"),
        (&SortedError::Memory, "no memory"),
    ]);
}

#[test]
fn sets() {
    let range = RangeError(65, 60);
    expect_texts(&[
        (&InvalidSetError(Vec::new()), "Invalid set"),
        (
            &SetError::Invalid(InvalidSetError(Vec::new())),
            "Invalid set",
        ),
        (&SetError::Memory, "no memory"),
        (&range, "Invalid range: 65..60"),
        (&TryRangeError::from(range), "Invalid range: 65..60"),
        (&TryRangeError::Memory, "no memory"),
    ]);
}

#[test]
fn tries() {
    expect_texts(&[
        (
            &CodePointTrieError::FromDeserialized {
                reason: "Cannot parse value for trie_type",
            },
            "Could not construct CodePointTrie from deserialized values: Cannot parse value for trie_type",
        ),
        (
            &CodePointTrieError::EmptyDataVector,
            "CodePointTrie must be constructed from data vector with at least one element",
        ),
        (
            &CodePointTrieError::IndexTooShortForFastAccess,
            "CodePointTrie must be constructed from index vector long enough to accommodate fast-path access",
        ),
        (
            &CodePointTrieError::DataTooShortForFastAccess,
            "CodePointTrie must be constructed from data vector long enough to accommodate fast-path access",
        ),
        (
            &CodePointTrieError::InvalidNullValue,
            "The null value is not a valid `T`",
        ),
        (&MapError::Closure("two"), "two"),
        (&MapError::<&str>::Memory, "no memory"),
        (&codepointtrie::BuildError::TooLarge, "too large"),
        (&codepointtrie::BuildError::Memory, "no memory"),
        (&ApplyRefused(3), "no memory for write 3"),
    ]);
}

#[test]
fn binary_forms() {
    expect_texts(&[
        (
            &BinaryError::Short,
            "there are fewer bytes than a header has",
        ),
        (&BinaryError::Signature, "there is no signature of a trie"),
        (
            &BinaryError::Swapped,
            "the trie is of a machine with the other byte order",
        ),
        (&BinaryError::UnknownType, "the type of the trie is unknown"),
        (
            &BinaryError::UnknownWidth,
            "the width of the values is unknown",
        ),
        (&BinaryError::Reserved, "a reserved bit is not 0"),
        (&BinaryError::OtherWidth, "the values have another width"),
        (&BinaryError::CutOff, "the index or the data are cut off"),
        (&BinaryError::Cell(7), "cell 7 is no value"),
        (
            &BinaryError::Trie(CodePointTrieError::InvalidNullValue),
            "The null value is not a valid `T`",
        ),
        (
            &SwappedError::Binary(BinaryError::Signature),
            "there is no signature of a trie",
        ),
        (&SwappedError::Memory, "no memory"),
        (
            &WriteError::UnknownWidth,
            "the form has no values of this width",
        ),
        (&WriteError::LongIndex, "the index is too long"),
        (&WriteError::LongData, "the data are too long"),
        (
            &WriteError::NullOffset,
            "the offset of the data null block is too large",
        ),
        (&WriteError::HighStart, "the form has no such high start"),
        (
            &WriteError::NullValue,
            "the null value is not that of the data null block",
        ),
        (&WriteError::Short, "the trie takes more bytes"),
        (&WriteError::Memory, "no memory"),
    ]);
}

#[cfg(feature = "json")]
#[test]
fn json() {
    use bekstaudi::char16trie::Char16JsonError;
    use bekstaudi::codepointinvlist::SetJsonError;
    use bekstaudi::codepointinvliststringlist::StringListJsonError;
    use bekstaudi::codepointtrie::json::TrieJsonError;
    expect_texts(&[
        (&SetJsonError::Memory, "no memory"),
        (&StringListJsonError::Memory, "no memory"),
        (
            &Char16JsonError::Shape,
            "no object with one array `data` or `trie_data`",
        ),
        (
            &Char16JsonError::Number(3),
            "item 3 is no whole number up to 65535",
        ),
        (&Char16JsonError::Memory, "no memory"),
        (
            &TrieJsonError::Shape("index"),
            "no value of the right kind at the key `index`",
        ),
        (
            &TrieJsonError::Number("data"),
            "no whole number in its range at the key `data`",
        ),
        (
            &TrieJsonError::Value(3),
            "cell 3 of the data is the number of no value",
        ),
        (
            &TrieJsonError::Trie(CodePointTrieError::InvalidNullValue),
            "The null value is not a valid `T`",
        ),
        (&TrieJsonError::Memory, "no memory"),
    ]);
}

#[cfg(feature = "toml")]
#[test]
fn toml() {
    use bekstaudi::codepointtrie::trie_toml::{TomlError, TrieFromTomlError};
    expect_texts(&[
        (&TomlError::Missing("index"), "no value at the key `index`"),
        (
            &TomlError::OutOfRange("type"),
            "the value at the key `type` is of another kind or out of its range",
        ),
        (&TomlError::Memory, "no memory"),
        (&TrieFromTomlError::Memory, "no memory"),
        (
            &TrieFromTomlError::Table(TomlError::Missing("index")),
            "no value at the key `index`",
        ),
        (
            &TrieFromTomlError::Trie(CodePointTrieError::InvalidNullValue),
            "The null value is not a valid `T`",
        ),
    ]);
}
