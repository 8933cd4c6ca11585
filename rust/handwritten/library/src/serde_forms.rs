//! Values to and from any format of serde, in the forms of the crate `icu_collections`.
//!
//! Formats that people read get numbers and texts. Other formats get packed bytes, and what is read
//! borrows them. Each value is tested as by its constructors.

use crate::char16trie::Char16Trie;
use crate::codepointinvlist::CodePointInversionList;
use crate::codepointinvliststringlist::CodePointInversionListAndStringList;
use crate::codepointtrie::toml::CodePointTrieToml;
use crate::codepointtrie::{CodePointTrie, CodePointTrieHeader, TrieType, TrieValue};
use crate::icu_invlist::spelling::{range_of, text_of_range};
use crate::support::memory::{TryString, TryVec};
use crate::zerovec::ule::AsULE;
use crate::zerovec::{MemoryError, ZeroSlice, ZeroVec};
use alloc::borrow::Cow;
use alloc::string::String;
use alloc::vec::Vec;
use core::fmt;
use core::marker::PhantomData;
use serde::de::{Error, SeqAccess, Visitor};
use serde::ser::{Error as _, SerializeSeq};
use serde::{Deserialize, Deserializer, Serialize, Serializer};

/// Returns the error of a failed allocation.
fn no_memory<E: Error>(_: impl Into<MemoryError>) -> E {
    E::custom(MemoryError)
}

/// Writes a sequence of the values in formats that people read, and their packed bytes in others.
impl<T: AsULE + Serialize> Serialize for ZeroSlice<'_, T> {
    fn serialize<S: Serializer>(&self, serializer: S) -> Result<S::Ok, S::Error> {
        if serializer.is_human_readable() {
            serializer.collect_seq(self.iter())
        } else {
            serializer.serialize_bytes(self.as_bytes())
        }
    }
}

/// Writes a sequence of the values in formats that people read, and their packed bytes in others.
impl<T: AsULE + Serialize> Serialize for ZeroVec<'_, T> {
    fn serialize<S: Serializer>(&self, serializer: S) -> Result<S::Ok, S::Error> {
        self.as_slice().serialize(serializer)
    }
}

struct Values<T>(PhantomData<T>);

impl<'de, T: AsULE + Deserialize<'de>> Visitor<'de> for Values<T> {
    type Value = ZeroVec<'de, T>;

    fn expecting(&self, f: &mut fmt::Formatter<'_>) -> fmt::Result {
        f.write_str("a sequence of values, or borrowed bytes")
    }

    fn visit_borrowed_bytes<E: Error>(self, bytes: &'de [u8]) -> Result<Self::Value, E> {
        ZeroVec::parse_bytes(bytes).map_err(E::custom)
    }

    fn visit_seq<A: SeqAccess<'de>>(self, mut values: A) -> Result<Self::Value, A::Error> {
        let mut bytes = Vec::new();
        while let Some(value) = values.next_element::<T>()? {
            bytes.try_extend_from_slice(&value.to_unaligned()[..T::WIDTH]).map_err(no_memory)?;
        }
        ZeroVec::parse_owned(bytes).map_err(A::Error::custom)
    }
}

/// Reads a sequence of values in formats that people read, and borrows their packed bytes in others.
impl<'de: 'a, 'a, T: AsULE + Deserialize<'de>> Deserialize<'de> for ZeroVec<'a, T> {
    fn deserialize<D: Deserializer<'de>>(deserializer: D) -> Result<Self, D::Error> {
        if deserializer.is_human_readable() {
            deserializer.deserialize_seq(Values(PhantomData))
        } else {
            deserializer.deserialize_bytes(Values(PhantomData))
        }
    }
}

#[derive(Serialize, Deserialize)]
#[serde(remote = "TrieType", rename = "TrieType")]
enum TrieTypeForm {
    Fast,
    Small,
}

/// Writes the variant.
impl Serialize for TrieType {
    fn serialize<S: Serializer>(&self, serializer: S) -> Result<S::Ok, S::Error> {
        TrieTypeForm::serialize(self, serializer)
    }
}

/// Reads the variant.
impl<'de> Deserialize<'de> for TrieType {
    fn deserialize<D: Deserializer<'de>>(deserializer: D) -> Result<Self, D::Error> {
        TrieTypeForm::deserialize(deserializer)
    }
}

#[derive(Serialize, Deserialize)]
#[serde(remote = "CodePointTrieHeader", rename = "CodePointTrieHeader")]
struct HeaderForm {
    high_start: u32,
    shifted12_high_start: u16,
    index3_null_offset: u16,
    data_null_offset: u32,
    null_value: u32,
    trie_type: TrieType,
}

/// Writes the fields, in order.
impl Serialize for CodePointTrieHeader {
    fn serialize<S: Serializer>(&self, serializer: S) -> Result<S::Ok, S::Error> {
        HeaderForm::serialize(self, serializer)
    }
}

/// Reads the fields.
impl<'de> Deserialize<'de> for CodePointTrieHeader {
    fn deserialize<D: Deserializer<'de>>(deserializer: D) -> Result<Self, D::Error> {
        HeaderForm::deserialize(deserializer)
    }
}

#[derive(Serialize, Deserialize)]
#[serde(rename = "CodePointTrieSerde")]
struct TrieForm<'trie, T: TrieValue> {
    header: CodePointTrieHeader,
    #[serde(borrow)]
    index: ZeroVec<'trie, u16>,
    #[serde(borrow)]
    data: ZeroVec<'trie, T>,
}

/// Writes a struct of the header, the index and the data. The values in the data are written by their
/// own `Serialize` in formats that people read, and as packed bytes in others.
impl<T: TrieValue + Serialize> Serialize for CodePointTrie<'_, T> {
    fn serialize<S: Serializer>(&self, serializer: S) -> Result<S::Ok, S::Error> {
        let (header, index, data) = self.parts();
        let form = TrieForm {
            header,
            index: index.as_zerovec(),
            data: data.as_zerovec(),
        };
        form.serialize(serializer)
    }
}

/// Reads a struct of the header, the index and the data. Parts that
/// [`try_new`](CodePointTrie::try_new) rejects are an error.
impl<'de: 'trie, 'trie, T: TrieValue + Deserialize<'de>> Deserialize<'de>
    for CodePointTrie<'trie, T>
{
    fn deserialize<D: Deserializer<'de>>(deserializer: D) -> Result<Self, D::Error> {
        let form = TrieForm::deserialize(deserializer)?;
        CodePointTrie::try_new(form.header, form.index, form.data).map_err(D::Error::custom)
    }
}

/// Writes a string for each range, such as `A-Z` or `_`, in formats that people read, and the packed
/// boundaries in others. A surrogate is `U+` and four digits.
impl Serialize for CodePointInversionList<'_> {
    fn serialize<S: Serializer>(&self, serializer: S) -> Result<S::Ok, S::Error> {
        if !serializer.is_human_readable() {
            return serializer.serialize_bytes(self.as_inversion_list().as_bytes());
        }
        let mut texts = serializer.serialize_seq(Some(self.get_range_count()))?;
        for range in self.iter_ranges() {
            let text = text_of_range(*range.start(), *range.end()).map_err(S::Error::custom)?;
            texts.serialize_element(&text)?;
        }
        texts.end()
    }
}

struct Ranges;

impl<'de> Visitor<'de> for Ranges {
    type Value = CodePointInversionList<'de>;

    fn expecting(&self, f: &mut fmt::Formatter<'_>) -> fmt::Result {
        f.write_str("a sequence of ranges, or borrowed bytes")
    }

    fn visit_borrowed_bytes<E: Error>(self, bytes: &'de [u8]) -> Result<Self::Value, E> {
        let ends = ZeroVec::parse_bytes(bytes).map_err(E::custom)?;
        CodePointInversionList::try_from_inversion_list(ends).map_err(E::custom)
    }

    fn visit_seq<A: SeqAccess<'de>>(self, mut texts: A) -> Result<Self::Value, A::Error> {
        let mut ends = Vec::new();
        while let Some(text) = texts.next_element::<Cow<'de, str>>()? {
            let Some((first, last)) = range_of(&text) else {
                return Err(A::Error::custom(format_args!("{text:?} is not a range")));
            };
            ends.try_extend_from_slice(&[first, last + 1]).map_err(no_memory)?;
        }
        CodePointInversionList::try_from_u32_inversion_list_slice(&ends).map_err(A::Error::custom)
    }
}

/// Reads a sequence of strings such as `A-Z`, `_` or `U+0041-U+005A` in formats that people read, and
/// borrows packed boundaries in others. Ranges that are reversed, or not ascending with gaps between
/// them, are an error.
impl<'de: 'data, 'data> Deserialize<'de> for CodePointInversionList<'data> {
    fn deserialize<D: Deserializer<'de>>(deserializer: D) -> Result<Self, D::Error> {
        if deserializer.is_human_readable() {
            deserializer.deserialize_seq(Ranges)
        } else {
            deserializer.deserialize_bytes(Ranges)
        }
    }
}

/// Strings as a sequence, or as the bytes of a `VarZeroVec<str>`: 16 bits each for their number and
/// for the offset of each but the first, lowest byte first, and then the texts. No strings have no
/// bytes.
struct StringsForm<'a>(Cow<'a, [String]>);

/// Returns the bytes of a `VarZeroVec<str>`, or why there are none.
fn packed_strings(strings: &[String]) -> Result<Vec<u8>, &'static str> {
    let mut bytes = Vec::new();
    let mut push = |more: &[u8]| bytes.try_extend_from_slice(more).map_err(|_| "no memory");
    let mut push_number = |number| match u16::try_from(number) {
        Ok(number) => push(&number.to_le_bytes()),
        Err(_) => Err("a string starts beyond byte 65,535"),
    };
    let mut start = 0;
    for (i, text) in strings.iter().enumerate() {
        push_number(if i == 0 { strings.len() } else { start })?;
        start += text.len();
    }
    for text in strings {
        push(text.as_bytes())?;
    }
    Ok(bytes)
}

impl Serialize for StringsForm<'_> {
    fn serialize<S: Serializer>(&self, serializer: S) -> Result<S::Ok, S::Error> {
        if serializer.is_human_readable() {
            return serializer.collect_seq(self.0.iter());
        }
        serializer.serialize_bytes(&packed_strings(&self.0).map_err(S::Error::custom)?)
    }
}

struct Strings;

/// Returns the number of 16 bits at an index.
fn short_at(bytes: &[u8], i: usize) -> Option<usize> {
    let number = bytes.get(2 * i..2 * i + 2)?;
    Some(usize::from(u16::from_le_bytes([number[0], number[1]])))
}

/// Returns text `i` of `count`, which follow the number and the offsets.
fn text_at(bytes: &[u8], count: usize, i: usize) -> Option<&str> {
    let texts = bytes.get(2 * count..)?;
    let start = if i == 0 { 0 } else { short_at(bytes, i)? };
    let end = if i + 1 == count { texts.len() } else { short_at(bytes, i + 1)? };
    str::from_utf8(texts.get(start..end)?).ok()
}

impl<'de> Visitor<'de> for Strings {
    type Value = StringsForm<'static>;

    fn expecting(&self, f: &mut fmt::Formatter<'_>) -> fmt::Result {
        f.write_str("a sequence of strings, or borrowed bytes")
    }

    fn visit_borrowed_bytes<E: Error>(self, bytes: &'de [u8]) -> Result<Self::Value, E> {
        let count = if bytes.is_empty() { Some(0) } else { short_at(bytes, 0).filter(|it| *it > 0) };
        let mut strings = Vec::new();
        for i in 0..count.ok_or_else(|| E::custom("no number of strings"))? {
            let text = text_at(bytes, count.unwrap_or(0), i);
            let text = text.ok_or_else(|| E::custom(format_args!("string {i} is not a text")))?;
            let text = <String as TryString>::from_str(text).map_err(no_memory)?;
            strings.try_push(text).map_err(no_memory)?;
        }
        Ok(StringsForm(strings.into()))
    }

    fn visit_seq<A: SeqAccess<'de>>(self, mut texts: A) -> Result<Self::Value, A::Error> {
        let mut strings = Vec::new();
        while let Some(text) = texts.next_element::<String>()? {
            strings.try_push(text).map_err(no_memory)?;
        }
        Ok(StringsForm(strings.into()))
    }
}

impl<'de> Deserialize<'de> for StringsForm<'static> {
    fn deserialize<D: Deserializer<'de>>(deserializer: D) -> Result<Self, D::Error> {
        if deserializer.is_human_readable() {
            deserializer.deserialize_seq(Strings)
        } else {
            deserializer.deserialize_bytes(Strings)
        }
    }
}

#[derive(Serialize)]
#[serde(rename = "CodePointInversionListAndStringList")]
struct TextSetForm<'a> {
    cp_inv_list: &'a CodePointInversionList<'a>,
    str_list: StringsForm<'a>,
}

/// Writes a struct of the code points and the strings.
impl Serialize for CodePointInversionListAndStringList<'_> {
    fn serialize<S: Serializer>(&self, serializer: S) -> Result<S::Ok, S::Error> {
        let form = TextSetForm {
            cp_inv_list: self.code_points(),
            str_list: StringsForm(self.string_slice().into()),
        };
        form.serialize(serializer)
    }
}

#[derive(Deserialize)]
#[serde(rename = "CodePointInversionListAndStringList")]
struct ReadTextSet<'data> {
    #[serde(borrow)]
    cp_inv_list: CodePointInversionList<'data>,
    str_list: StringsForm<'static>,
}

/// Reads a struct of the code points and the strings. Strings that
/// [`try_from`](CodePointInversionListAndStringList::try_from) rejects are an error.
impl<'de: 'data, 'data> Deserialize<'de> for CodePointInversionListAndStringList<'data> {
    fn deserialize<D: Deserializer<'de>>(deserializer: D) -> Result<Self, D::Error> {
        let form = ReadTextSet::deserialize(deserializer)?;
        let strings = form.str_list.0.into_owned();
        CodePointInversionListAndStringList::try_from(form.cp_inv_list, strings)
            .map_err(D::Error::custom)
    }
}

#[derive(Serialize, Deserialize)]
#[serde(rename = "Char16Trie")]
struct UnitTrieForm<'data> {
    #[serde(borrow, alias = "trie_data")]
    data: ZeroVec<'data, u16>,
}

/// Writes a struct of the units.
impl Serialize for Char16Trie<'_> {
    fn serialize<S: Serializer>(&self, serializer: S) -> Result<S::Ok, S::Error> {
        let form = UnitTrieForm {
            data: self.data.as_slice().as_zerovec(),
        };
        form.serialize(serializer)
    }
}

/// Reads a struct of the units. Like [`new`](Char16Trie::new), it does not validate them.
impl<'de: 'data, 'data> Deserialize<'de> for Char16Trie<'data> {
    fn deserialize<D: Deserializer<'de>>(deserializer: D) -> Result<Self, D::Error> {
        Ok(Char16Trie::new(UnitTrieForm::deserialize(deserializer)?.data))
    }
}

#[derive(Deserialize)]
#[serde(rename = "CodePointTrieToml")]
struct TomlForm {
    index: Vec<u16>,
    data_8: Option<Vec<u8>>,
    data_16: Option<Vec<u16>>,
    data_32: Option<Vec<u32>>,
    #[serde(rename = "highStart")]
    high_start: u32,
    #[serde(rename = "shifted12HighStart")]
    shifted12_high_start: u16,
    #[serde(rename = "type")]
    trie_type: u8,
    #[serde(rename = "valueWidth")]
    value_width: u8,
    #[serde(rename = "index3NullOffset")]
    index3_null_offset: u16,
    #[serde(rename = "dataNullOffset")]
    data_null_offset: u32,
    #[serde(rename = "nullValue")]
    null_value: u32,
}

/// Reads the table of any format that ICU4C exports as TOML, with the keys of
/// [`CodePointTrieToml`].
impl<'de> Deserialize<'de> for CodePointTrieToml {
    fn deserialize<D: Deserializer<'de>>(deserializer: D) -> Result<Self, D::Error> {
        let form = TomlForm::deserialize(deserializer)?;
        Ok(CodePointTrieToml {
            index: form.index,
            data_8: form.data_8,
            data_16: form.data_16,
            data_32: form.data_32,
            fields: crate::icu_trie_formats::trie_toml::TomlFields {
                high_start: form.high_start,
                shifted12_high_start: form.shifted12_high_start,
                trie_type: form.trie_type,
                value_width: form.value_width,
                index3_null_offset: form.index3_null_offset,
                data_null_offset: form.data_null_offset,
                null_value: form.null_value,
            },
        })
    }
}
