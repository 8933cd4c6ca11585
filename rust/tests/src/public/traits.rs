//! Traits that the sources in Rattle lack: what they return, compared with std or with the methods.

mod random;

use bekstaudi::char16trie::{Char16Trie, Char16TrieBuilder};
use bekstaudi::codepointinvlist::{
    CodePointInversionList, CodePointInversionListBuilder, FrozenCodePointSet,
    FrozenCodePointSetAndStrings, InvalidStaticSet, Span,
};
use bekstaudi::codepointinvliststringlist::{CodePointInversionListAndStringList, Strings};
use bekstaudi::codepointtrie::binary::{from_binary_any, to_binary};
use bekstaudi::codepointtrie::planes::get_planes_trie;
use bekstaudi::codepointtrie::text::{
    value_indices_of, values_of, values_of_utf8, values_of_utf16,
};
use bekstaudi::codepointtrie::{
    CodePointTrie, CodePointTrieBuilder, FastCodePointTrie, IterRangesForValue, SmallCodePointTrie,
    TrieType, Typed, text,
};
use bekstaudi::zeroslice;
use bekstaudi::zerovec::{ZeroSlice, ZeroVec};
use random::Random;
use std::collections::{BTreeSet, VecDeque};
use std::fmt::Debug;
use std::hash::{BuildHasher, BuildHasherDefault, DefaultHasher, Hash};
use std::iter::FusedIterator;

// Traits that the sources in Rattle lack: what they return, compared with std or with the methods.

fn hash_of(value: &impl Hash) -> u64 {
    BuildHasherDefault::<DefaultHasher>::default().hash_one(value)
}

/// Tests that a clone is equal, and that its hash is.
fn clones<T: Clone + Debug + Eq + Hash>(value: &T) {
    assert_eq!(value.clone(), *value);
    assert_eq!(hash_of(&value.clone()), hash_of(value));
}

/// Tests that a clone of an iterator, taken in the middle, yields the same items, and that the
/// iterator has ended once it says so.
fn iterates<I: Iterator<Item: Debug + PartialEq> + Clone + FusedIterator>(mut items: I) {
    items.next();
    assert_eq!(
        items.clone().collect::<Vec<_>>(),
        items.by_ref().collect::<Vec<_>>()
    );
    assert!(items.next().is_none() && items.next().is_none());
}

/// The characters and ranges of many sets: in no order, overlapping, touching, empty, and outside
/// the code space.
fn numbers(seed: u32) -> Vec<u32> {
    let next = |c: &u32| Some(c.wrapping_mul(1_664_525).wrapping_add(1_013_904_223));
    std::iter::successors(Some(seed), next)
        .take(200)
        .map(|c| c >> 10 & 0x3FF)
        .collect()
}

#[test]
fn sets_collect_in_any_order() {
    for seed in 0..200 {
        let points = numbers(seed);
        let characters = points.iter().filter_map(|c| char::from_u32(*c));
        let set: CodePointInversionList = characters.clone().collect();
        let expected: BTreeSet<u32> = points.iter().copied().collect();
        assert_eq!(
            set.iter_chars().map(u32::from).collect::<Vec<_>>(),
            Vec::from_iter(expected)
        );
        let mut builder: CodePointInversionListBuilder = characters.clone().take(100).collect();
        builder.extend(characters.skip(100));
        assert_eq!(builder.build(), set);
    }
}

#[test]
fn sets_collect_ranges() {
    for seed in 0..200 {
        let edge = 0x10_FE00;
        let bounds = numbers(seed);
        let ranges = bounds.chunks(2).map(|it| edge + it[0]..=edge + it[1]);
        let mut builder = CodePointInversionListBuilder::new();
        ranges.clone().for_each(|it| builder.add_range32(it));
        let set = builder.build();
        assert_eq!(ranges.clone().collect::<CodePointInversionList>(), set);
        let mut builder: CodePointInversionListBuilder = ranges.clone().take(20).collect();
        builder.extend(ranges.skip(20));
        assert_eq!(builder.build(), set);
        let backwards: Vec<_> = set.iter_ranges().rev().collect();
        let forwards: Vec<_> = (&set).into_iter().collect();
        assert_eq!(backwards.into_iter().rev().collect::<Vec<_>>(), forwards);
        let mut both = set.iter_ranges();
        assert_eq!(
            (both.next(), both.next_back()),
            (
                forwards.first().cloned(),
                forwards.get(1..).and_then(<[_]>::last).cloned()
            )
        );
        assert_eq!(
            CodePointInversionListBuilder::from(set.clone()).build(),
            set
        );
    }
    let letters: CodePointInversionList = ['x'..='z', 'a'..='c', 'b'..='f'].into_iter().collect();
    assert_eq!(letters.get_inversion_list_vec(), [0x61, 0x67, 0x78, 0x7B]);
    let mut builder: CodePointInversionListBuilder =
        ['\u{D7FF}'..='\u{E000}'].into_iter().collect();
    builder.extend(['a'..='a']);
    assert_eq!(builder.build().size(), 0x803);
    let whole: CodePointInversionList = [0..=0x10_FFFF].into_iter().collect();
    assert_eq!(whole, CodePointInversionList::all());
    let none: CodePointInversionList = [0..=0x11_0000, 7..=6].into_iter().collect();
    assert_eq!(none, CodePointInversionList::default());
}

#[test]
fn values_clone_and_hash() -> Result<(), Box<dyn std::error::Error>> {
    let set: CodePointInversionList = ('a'..='z').collect();
    clones(&set);
    clones(&FrozenCodePointSet::freeze(&set));
    let texts: CodePointInversionListAndStringList = ["a", "abc"].into_iter().collect();
    clones(&texts);
    clones(&FrozenCodePointSetAndStrings::freeze(&texts));
    assert_eq!(
        texts,
        ["abc".to_string(), "a".to_string()].into_iter().collect()
    );
    assert_eq!(CodePointInversionListAndStringList::default().size(), 0);
    let trie = get_planes_trie();
    clones(&trie);
    clones(&from_binary_any(&to_binary(&trie)?)?.0);
    let Typed::Small(small) = trie.clone().to_typed() else {
        unreachable!()
    };
    clones(&small);
    let mut builder = Char16TrieBuilder::default();
    builder.add_str("ab", 2)?;
    let units = builder.clone().try_build()?;
    assert_eq!(builder.try_build()?, units);
    clones(&units);
    assert_eq!(Char16Trie::default().iter2().next(), None);
    Ok(())
}

#[test]
fn iterators_clone_and_end() -> Result<(), Box<dyn std::error::Error>> {
    let set: CodePointInversionList = ('a'..='z').chain('0'..='9').collect();
    iterates(set.iter_ranges());
    iterates(set.iter_ranges_complemented());
    iterates(set.iter_chars());
    let frozen = FrozenCodePointSet::freeze(&set);
    iterates(frozen.spans("a, b, c"));
    assert_eq!(
        frozen.spans("a").next(),
        Some(Span {
            text: "a",
            is_held: true
        })
    );
    let trie = get_planes_trie();
    iterates(trie.iter_ranges());
    iterates(trie.iter_ranges_for_value(1));
    iterates(trie.iter_ranges_mapped(|it| it % 2));
    use bekstaudi::codepointtrie::text::{
        value_indices_of, values_of, values_of_utf8, values_of_utf16,
    };
    iterates(values_of(&trie, "a\u{E9}b"));
    iterates(value_indices_of(&trie, "a\u{E9}b"));
    iterates(values_of_utf8(&trie, b"a\xFFb"));
    iterates(values_of_utf16(&trie, &[0x61, 0xD800, 0x62]));
    let numbers: ZeroVec<'_, u16> = [1, 2, 3].into_iter().collect();
    iterates(numbers.iter());
    assert_eq!(numbers.iter().rev().collect::<Vec<_>>(), [3, 2, 1]);
    assert_eq!((&numbers).into_iter().len(), 3);
    let mut builder = Char16TrieBuilder::new();
    builder.add_str("ab", 2)?;
    builder.add_str("a", 1)?;
    let units = builder.try_build()?;
    iterates(units.iter2());
    iterates(units.matches(&[0x61, 0x62]));
    let mut entries = units.entries();
    assert!(entries.advance());
    assert!(entries.clone().advance() && entries.key() == "a");
    Ok(())
}

#[test]
fn results_are_compared_and_hashed() {
    let trie = get_planes_trie();
    let mut buffer = [0; 4];
    let copied = text::copy_values(&trie, b"ab", &mut buffer);
    assert_eq!(copied, text::copy_values(&trie, b"cd", &mut buffer));
    assert_ne!(copied, text::copy_values(&trie, b"a", &mut buffer));
    clones(&copied);
    clones(&InvalidStaticSet);
}

// What constants can call.
static BUILDER: CodePointInversionListBuilder = CodePointInversionListBuilder::new();

const BUILDER_IS_EMPTY: bool = BUILDER.is_empty();

const NUMBERS: ZeroVec<'static, u16> = zeroslice!(u16; [1, 2]).as_zerovec();

const NUMBERS_AGAIN: ZeroSlice<'static, u16> = NUMBERS_STATIC.as_slice();

static NUMBERS_STATIC: ZeroVec<'static, u16> = NUMBERS;

const fn ranges<'a>(trie: &'a CodePointTrie<'_, u8>) -> IterRangesForValue<'a, u8> {
    trie.iter_ranges_for_value(1)
}

const fn typed(
    trie: CodePointTrie<'_, u8>,
) -> Typed<FastCodePointTrie<'_, u8>, SmallCodePointTrie<'_, u8>> {
    trie.to_typed()
}

const fn count(strings: Strings<'_>) -> usize {
    if strings.is_empty() {
        0
    } else {
        strings.len() + strings.as_slice().len()
    }
}

#[test]
fn constants_call_getters() {
    const { assert!(BUILDER_IS_EMPTY) };
    assert_eq!(NUMBERS_AGAIN.iter().collect::<Vec<_>>(), [1, 2]);
    assert_eq!(ranges(&get_planes_trie()).next(), Some(0x1_0000..=0x1_FFFF));
    assert!(matches!(typed(get_planes_trie()), Typed::Small(_)));
    let texts: CodePointInversionListAndStringList = ["ab", "abc"].into_iter().collect();
    assert_eq!(count(texts.strings()), 4);
}

#[test]
fn builders_of_tries_extend() {
    let mut builder = CodePointTrieBuilder::new(0u8, 9, TrieType::Small);
    builder.extend([(0x41..=0x5A, 1), (0x51..=0x51, 2)]);
    let trie = builder.clone().build();
    assert_eq!(trie.get_range(0x51).map(|it| it.range), Some(0x51..=0x51));
    let mut copy = CodePointTrieBuilder::new(0u8, 9, TrieType::Small);
    copy.extend(trie.iter_ranges());
    assert_eq!(copy.build(), trie);
}

// Iterators from both ends, and how many items they say are left: over the sets and the ranges of
// two tables of Unicode, over random sets at the edges, and over texts.

/// Tests that the bounds include the number of items that are left, at each item.
fn counts<I: Iterator + Clone>(mut items: I) {
    let mut left = items.clone().count();
    loop {
        let (least, most) = items.size_hint();
        assert!(
            least <= left && most.is_none_or(|it| left <= it),
            "{left} of {least}, {most:?}"
        );
        if items.next().is_none() {
            return;
        }
        left -= 1;
    }
}

/// Tests that items from both ends, in turns as the bits of `turns` say, are those of a list.
fn is_whole<I>(mut items: I, turns: u64)
where
    I: DoubleEndedIterator<Item: Debug + PartialEq> + Clone,
{
    let mut expected: VecDeque<_> = items.clone().collect();
    assert!(
        items
            .clone()
            .rev()
            .eq(items.clone().collect::<Vec<_>>().into_iter().rev())
    );
    for turn in 0.. {
        let (least, most) = items.size_hint();
        let left = expected.len();
        assert!(
            least <= left && most.is_none_or(|it| left <= it),
            "{left} of {least}, {most:?}"
        );
        let is_back = turns >> (turn % 64) & 1 == 1;
        let found = if is_back {
            items.next_back()
        } else {
            items.next()
        };
        assert_eq!(
            found,
            if is_back {
                expected.pop_back()
            } else {
                expected.pop_front()
            }
        );
        if found.is_none() {
            assert!(items.next().is_none() && items.next_back().is_none());
            return;
        }
    }
}

/// Turns at the start only, at the end only, and at both.
const TURNS: [u64; 5] = [0, u64::MAX, 0x5555_5555_5555_5555, 0xF0F3_0C11_8E5A_77E1, 1];

fn is_whole_set(set: &CodePointInversionList<'_>) {
    for turns in TURNS {
        is_whole(set.iter_chars(), turns);
        is_whole(set.iter_ranges_complemented(), turns);
    }
    assert_eq!(
        set.iter_ranges_complemented().len(),
        set.iter_ranges_complemented().count()
    );
}

/// The trie of a table.
fn table(name: &str) -> CodePointTrie<'static, u32> {
    let top = std::env::var("REPOSITORY").expect("no REPOSITORY");
    let rows = std::fs::read_to_string(format!("{top}/{name}.txt")).expect("no table");
    let mut builder = CodePointTrieBuilder::new(0, u32::MAX, TrieType::Fast);
    for row in rows.lines() {
        let (range, value) = row.split_once(';').expect("no value");
        let (first, last) = range.split_once("..").unwrap_or((range, range));
        let number = |text| u32::from_str_radix(text, 16).expect("no code point");
        let value = value
            .trim()
            .parse()
            .or_else(|_| u32::from_str_radix(value.trim(), 16));
        builder.set_range_value(number(first)..=number(last), value.expect("no number"));
    }
    builder.build()
}

#[test]
fn sets_of_tables() {
    let categories = table("data/general_category");
    for value in 0..32 {
        is_whole_set(&categories.get_set_for_value(value));
        counts(categories.iter_ranges_for_value(value));
    }
    for trie in [&categories, &table("tests/data/simple_uppercase")] {
        counts(trie.iter_ranges());
        counts(trie.iter_ranges_mapped(|it| it % 2));
    }
}

#[test]
fn sets_at_the_edges() {
    let edges = [
        0, 0x41, 0xD7FE, 0xD800, 0xDBFF, 0xDFFF, 0xE000, 0xFFFF, 0x10_FFFE, 0x10_FFFF,
    ];
    let mut random = Random(7);
    for _ in 0..1000 {
        let near =
            |random: &mut Random| (random.one_of(&edges) + random.below(3) as u32).min(0x10_FFFF);
        let ranges = (0..random.below(5)).map(|_| {
            let (one, other) = (near(&mut random), near(&mut random));
            let last = if random.below(2) == 0 {
                one.min(other) + 5
            } else {
                one.max(other)
            };
            one.min(other)..=last
        });
        let set: CodePointInversionList =
            ranges.filter(|it| it.end() - it.start() < 70_000).collect();
        is_whole_set(&set);
    }
    is_whole_set(&CodePointInversionList::all());
    is_whole_set(&CodePointInversionList::bmp());
}

#[test]
fn values_of_texts() {
    let trie = table("data/general_category");
    let letters = FrozenCodePointSet::freeze(&trie.get_set_for_value(1));
    let characters = [
        'a',
        'Z',
        '\u{E9}',
        '\u{FFFD}',
        '\u{D7FF}',
        '\u{1F600}',
        '\u{10FFFF}',
    ];
    let units = [0x61, 0xD7FF, 0xD800, 0xDBFF, 0xDC00, 0xDFFF, 0xE000];
    let mut random = Random(11);
    for round in 0..2000 {
        let length = random.below(20);
        let text: String = (0..length).map(|_| random.one_of(&characters)).collect();
        let units: Vec<u16> = (0..length).map(|_| random.one_of(&units)).collect();
        let turns = TURNS[round % TURNS.len()];
        is_whole(values_of(&trie, &text), turns);
        is_whole(value_indices_of(&trie, &text), turns);
        is_whole(values_of_utf16(&trie, &units), turns);
        let mut bytes = text.clone().into_bytes();
        bytes.push(b'a');
        random.damage(&mut bytes);
        counts(values_of_utf8(&trie, &bytes));
        counts(letters.spans(&text));
    }
    let hint = "\u{20AC}".chars().size_hint();
    assert_eq!(values_of(&trie, "\u{20AC}").size_hint(), hint);
    assert_eq!(values_of_utf8(&trie, b"abc").size_hint(), hint);
}

#[test]
fn keys_of_unit_tries() -> Result<(), Box<dyn std::error::Error>> {
    let mut builder = Char16TrieBuilder::new();
    for key in ["a", "ab", "abcd", "b"] {
        builder.add_str(key, 1)?;
    }
    let trie = builder.try_build()?;
    for text in ["", "a", "abc", "abcde", "bx", "x"] {
        counts(trie.matches(&text.encode_utf16().collect::<Vec<_>>()));
    }
    Ok(())
}
