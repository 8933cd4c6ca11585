//! What clients of `icu_collections` write. That it compiles is the test; each part also runs.
#![cfg(test)]

/// Sets as properties store them.
mod sets {
    use icu_collections::codepointinvlist::*;
    use icu_collections::codepointinvliststringlist::CodePointInversionListAndStringList as StringSet;
    use icu_collections::zerovec::{VarZeroVec, ZeroVec};
    use std::ops::RangeInclusive;

    const ALL: CodePointInversionList<'static> = CodePointInversionList::all();
    const BUILDER: CodePointInversionListBuilder = CodePointInversionListBuilder::new();

    #[allow(unused_unsafe)] // The Rust crate's function is unsafe.
    static BAKED: CodePointInversionList<'static> =
        unsafe { CodePointInversionList::from_parts_unchecked(ZeroVec::new(), 0) };

    #[derive(Clone, Debug, PartialEq, Eq, Hash)]
    struct Property<'data>(CodePointInversionList<'data>);

    #[test]
    fn sets() {
        let mut builder = BUILDER;
        builder.add_range('a'..='z');
        builder.add32(0x41);
        builder.retain_range32(..0x80);
        builder.complement();
        let set: CodePointInversionList<'static> = builder.build();
        let ranges: Vec<RangeInclusive<u32>> = set.iter_ranges().collect();
        assert_eq!((ranges.len(), set.size() + 27_usize), (3, ALL.size()));
        assert!(!set.contains_range('a'..'c') && BAKED.is_empty());
        let error: Result<CodePointInversionList<'static>, InvalidSetError> =
            CodePointInversionList::try_from_u32_inversion_list_slice(&[2, 1]);
        assert!(error.is_err());
        let property = Property(set);
        assert_eq!(property.clone(), property);
        let all = StringSet::try_from(property.0, VarZeroVec::<str>::from(&["ab"])).expect("a set");
        let texts: Vec<&str> = all.strings().iter().map(|it: &str| it).collect();
        assert_eq!(texts, ["ab"]);
    }
}

/// Sets and tries in a user's own types, to and from JSON.
mod stored {
    use icu_collections::codepointinvlist::CodePointInversionList;
    use icu_collections::codepointtrie::{planes::get_planes_trie, toml::CodePointTrieToml, *};
    use serde::{Deserialize, Serialize, de::DeserializeOwned};

    #[derive(Debug, PartialEq, Serialize, Deserialize)]
    #[serde(bound(deserialize = "T: Deserialize<'de>"))]
    struct Data<'data, T: TrieValue + Serialize> {
        #[serde(borrow)]
        trie: CodePointTrie<'data, T>,
        #[serde(borrow)]
        set: CodePointInversionList<'data>,
    }

    fn again<T: Serialize + DeserializeOwned>(value: &T) -> Option<T> {
        serde_json::from_str(&serde_json::to_string(value).ok()?).ok()
    }

    #[test]
    fn stored() {
        let (trie, set) = (get_planes_trie(), CodePointInversionList::bmp());
        let header: (CodePointTrieHeader, TrieType) = (trie.parts().0, TrieType::Fast);
        let data = Data { trie, set };
        let text = serde_json::to_string(&data).expect("JSON");
        assert_eq!(serde_json::from_str::<Data<u8>>(&text).ok(), Some(data));
        assert_eq!(again(&header), Some(header));
        assert!(serde_json::from_str::<CodePointTrieToml>("{}").is_err());
    }
}

/// Tries, generic over their values and their types.
mod tries {
    use icu_collections::codepointtrie::{planes::get_planes_trie, *};
    use icu_collections::zerovec::{ZeroVec, ule::UleError};
    use std::{any::TypeId, ops::RangeInclusive};

    fn named<T: TrieValue>(number: u32) -> Result<TypeId, String> {
        let value = T::try_from_u32(number).map(|_| TypeId::of::<T>());
        value.map_err(|error| format!("{error}"))
    }

    fn untyped<'trie, T: TypedCodePointTrie<'trie, u32>>(trie: T) -> CodePointTrie<'trie, u32> {
        let first: Option<CodePointMapRange<u32>> = trie.as_untyped_ref().get_range(0);
        assert_eq!(first.map(|it| (it.range, it.value)), Some((0..=0x40, 0)));
        trie.to_untyped()
    }

    fn value_of<T: TrieValue>(header: CodePointTrieHeader, index: &[u16], data: &[T]) -> Option<T> {
        let index = ZeroVec::from_slice_or_alloc(index);
        let trie = CodePointTrie::try_new(header, index, ZeroVec::from_slice_or_alloc(data));
        Some(trie.ok()?.get32(0))
    }

    fn widen<'a>(trie: &CodePointTrie<'a, u8>, n: &mut u8) -> Result<CodePointTrie<'a, u16>, u32> {
        trie.try_alloc_map_value(|value| Ok(value.max(std::mem::take(n)).into()))
    }

    fn of<'a>(
        trie: &'a CodePointTrie<u8>,
        n: u8,
    ) -> impl Iterator<Item = RangeInclusive<u32>> + 'a {
        let ranges = trie.iter_ranges_mapped(move |value| value == n);
        ranges.filter(|it| it.value).map(|it| it.range)
    }

    /// With the typed trie that docs/ICU4X.md has in place of a reference to one.
    fn look_up<'data>(trie: &'data CodePointTrie<'data, u32>) -> impl Fn(char) -> u32 + 'data {
        let trie = FastCodePointTrie::try_from(trie).expect("a fast trie");
        move |c| trie.get(c)
    }

    #[test]
    fn tries() {
        let mut builder = CodePointTrieBuilder::<u32>::new(0, 9, TrieType::Fast);
        builder.set_range_value(0x41..=0x5A, 1);
        let trie = builder.build();
        assert_eq!(look_up(&trie)('B'), 1);
        let fast = FastCodePointTrie::try_from(trie).expect("a fast trie");
        assert_eq!(untyped(fast).get_set_for_value(1).size(), 26);
        let (planes, header) = (get_planes_trie(), get_planes_trie().parts().0);
        assert_eq!(value_of(header, &[], &[1u8]), None);
        assert_eq!(of(&planes, 2).next(), Some(0x20000..=0x2FFFF));
        assert_eq!(widen(&planes, &mut 9).map(|it| it.get32(0x10FFFF)), Ok(16));
        let signed: Result<CodePointTrie<i8>, UleError> = planes.try_into_converted();
        assert_eq!(signed.map(|it| it.get32(0x10FFFF)).ok(), Some(16));
        let empty = CodePointTrie::<u8>::try_new(header, ZeroVec::new(), ZeroVec::new());
        assert!(matches!(empty, Err(CodePointTrieError::EmptyDataVector)));
        assert!(named::<char>(0xD800).is_err());
    }
}

/// Lists of words: here "ab", with the value 3.
mod words {
    use icu_collections::char16trie::{Char16Trie, Char16TrieCursor, TrieResult};
    use icu_collections::zerovec::{ZeroSlice, ZeroVec};
    use std::fmt::Write;

    fn value(units: &ZeroSlice<u16>, word: &str) -> Option<i32> {
        let mut cursor = Char16TrieCursor::new(units);
        write!(cursor, "{word}").ok()?;
        cursor.value()
    }

    #[test]
    fn words() {
        let trie = Char16Trie::new(ZeroVec::from_slice_or_alloc(&[0x31, 0x61, 0x62, 0x8003]));
        let words: Vec<(String, i32)> = trie.iter2().collect();
        assert_eq!(words, [("ab".to_owned(), 3)]);
        assert_eq!(trie.iter().next('a'), TrieResult::NoValue);
        assert_eq!(value(&trie.data.as_slice(), "ab"), Some(3));
    }
}
