//! Operators of sets, sets and ranges by a closure, and the builder of sets with strings, compared with
//! models of std: trees of code points and of texts, and vectors of values; and sets that are collected.

mod random;

use bekstaudi::codepointinvlist::{CodePointInversionList, CodePointInversionListBuilder};
use bekstaudi::codepointinvliststringlist::{
    CodePointInversionListAndStringList, CodePointInversionListAndStringListBuilder,
};
use bekstaudi::codepointtrie::planes::get_planes_trie;
use bekstaudi::codepointtrie::{CodePointTrieBuilder, TrieType};
use random::Random;
use refusing::{asked, begin, count};
use std::collections::BTreeSet;

// Operators of sets, sets and ranges by a closure, and the builder of sets with strings, compared with
// models of std: trees of code points and of texts, and vectors of values.

const LIMIT: u32 = 0x11_0000;

/// The code points of a set, by `iter_ranges`.
fn points_of(set: &CodePointInversionList<'_>) -> BTreeSet<u32> {
    set.iter_ranges().flatten().collect()
}

/// A set of up to 8 short ranges in the first thousand code points and the last ones, with its model.
fn any_set(random: &mut Random) -> (CodePointInversionList<'static>, BTreeSet<u32>) {
    let mut builder = CodePointInversionListBuilder::new();
    let mut model = BTreeSet::new();
    for _ in 0..random.below(9) {
        let top = if random.below(2) == 0 { 1000 } else { LIMIT };
        let start = top - 1 - random.below(900) as u32;
        let last = (start + random.below(60) as u32).min(LIMIT - 1);
        builder.add_range32(start..=last);
        model.extend(start..=last);
    }
    (builder.build(), model)
}

#[test]
fn operators() {
    let mut random = Random(1);
    for _ in 0..3000 {
        let ((a, a_model), (b, b_model)) = (any_set(&mut random), any_set(&mut random));
        assert_eq!(points_of(&(&a | &b)), &a_model | &b_model);
        assert_eq!(points_of(&(&a & &b)), &a_model & &b_model);
        assert_eq!(points_of(&(&a - &b)), &a_model - &b_model);
        assert_eq!(points_of(&(&a ^ &b)), &a_model ^ &b_model);
        let edges = a_model
            .iter()
            .flat_map(|&c| [c.saturating_sub(1), c, c + 1]);
        let not = !&a;
        assert!(
            edges
                .filter(|&c| c < LIMIT)
                .all(|c| not.contains32(c) != a_model.contains(&c))
        );
        assert_eq!((not.size() + a_model.len(), !&not), (LIMIT as usize, a));
    }
    let (all, none) = (
        CodePointInversionList::all(),
        CodePointInversionList::default(),
    );
    assert_eq!((!&all, !&none), (none.clone(), all.clone()));
    assert_eq!(
        (&all | &none, &all & &none, &all - &all, &none ^ &all),
        (all.clone(), none.clone(), none, all)
    );
}

/// A result does not borrow from its arguments.
#[test]
fn operators_own_their_results() {
    let union: CodePointInversionList<'static> = {
        let letters = CodePointInversionList::try_from('a'..='z').unwrap();
        &letters | &CodePointInversionList::bmp()
    };
    assert_eq!(union.size(), 0x1_0000);
}

#[test]
fn sets_and_ranges_by_a_closure() {
    let mut random = Random(2);
    for trie_type in [TrieType::Fast, TrieType::Small] {
        let mut builder = CodePointTrieBuilder::new(0u8, 9, trie_type);
        let mut model = vec![0u8; LIMIT as usize];
        for _ in 0..200 {
            let start = random.below(0x11_0000) as u32 >> (4 * random.below(4));
            let last = (start + random.below(3000) as u32).min(LIMIT - 1);
            let value = random.below(6) as u8;
            builder.set_range_value(start..=last, value);
            model[start as usize..=last as usize].fill(value);
        }
        let trie = builder.build();
        let filters: [fn(u8) -> bool; 5] = [
            |it| it == 3,
            |it| it % 2 == 1,
            |it| it != 0,
            |_| true,
            |_| false,
        ];
        for filter in filters {
            let wanted: BTreeSet<u32> = (0..LIMIT).filter(|&c| filter(model[c as usize])).collect();
            assert_eq!(points_of(&trie.get_set_where(filter)), wanted);
            for _ in 0..100 {
                let c = random.below(0x11_0000) as u32;
                let is_in = filter(model[c as usize]);
                let end = (c..LIMIT)
                    .find(|&it| filter(model[it as usize]) != is_in)
                    .unwrap_or(LIMIT);
                let range = trie.get_range_mapped(c, filter).expect("a code point");
                assert_eq!((range.range, range.value), (c..=end - 1, is_in));
            }
        }
        assert_eq!(trie.get_range_mapped(LIMIT, |it| it), None);
        assert_eq!(trie.get_range_mapped(u32::MAX, |it| it), None);
        let from_start = |c| trie.get_range_mapped(c, |it| it).map(|it| it.range);
        assert!(
            (0..LIMIT)
                .step_by(97)
                .all(|c| from_start(c) == trie.get_range(c).map(|it| it.range))
        );
    }
}

/// A range by a closure needs no memory.
#[test]
fn ranges_by_a_closure_allocate_nothing() {
    let planes = get_planes_trie();
    begin(usize::MAX);
    count(true);
    let range = planes.get_range_mapped(0x5_1234, |plane| plane / 4);
    count(false);
    assert_eq!(asked(), 0);
    assert_eq!(
        range.map(|it| (it.range, it.value)),
        Some((0x5_1234..=0x7_FFFF, 1))
    );
}

/// A text of up to three of four characters.
fn any_text(random: &mut Random) -> String {
    (0..random.below(4))
        .map(|_| random.one_of(&['a', 'b', 'ß', '\u{1F600}']))
        .collect()
}

#[test]
fn texts_added_and_removed() {
    let mut random = Random(3);
    for _ in 0..2000 {
        let mut builder = CodePointInversionListAndStringListBuilder::new();
        let mut model = BTreeSet::new();
        for _ in 0..random.below(12) {
            let texts: BTreeSet<String> = (0..random.below(6))
                .map(|_| any_text(&mut random))
                .collect();
            let set: CodePointInversionListAndStringList =
                texts.iter().map(String::as_str).collect();
            let text = any_text(&mut random);
            match random.below(6) {
                0 => {
                    builder.add_set(&set);
                    model.extend(texts);
                }
                1 => {
                    builder.remove_set(&set);
                    model.retain(|it| !texts.contains(it));
                }
                2 => {
                    builder.retain_set(&set);
                    model.retain(|it| texts.contains(it));
                }
                3 => {
                    builder.remove_str(&text);
                    model.remove(&text);
                }
                4 => {
                    builder.extend(texts.iter().map(String::as_str));
                    model.extend(texts);
                }
                _ => {
                    builder.add_str(&text);
                    model.insert(text);
                }
            }
        }
        let expected: CodePointInversionListAndStringList =
            model.iter().map(String::as_str).collect();
        let set = builder.build();
        assert_eq!(set, expected);
        assert_eq!(set.size(), model.len());
        assert!(model.iter().all(|it| set.contains_str(it)));
    }
}

// Sets that are collected from characters or ranges in any order.

/// Every second character, in no order: 7919 and 0x110000 have no common factor.
fn scattered() -> impl Iterator<Item = char> {
    let points = (0..0x11_0000u64).map(|it| (it * 7919 % 0x11_0000) as u32);
    points.filter(|c| c % 2 == 0).filter_map(char::from_u32)
}

#[test]
fn characters() {
    let set: CodePointInversionList = scattered().collect();
    assert_eq!((set.size(), set.get_range_count()), (556_032, 556_032));
    assert!(set.iter_chars().eq(('\0'..=char::MAX).step_by(2)));
    let all = scattered().chain(scattered().map(|c| char::from_u32(u32::from(c) + 1).unwrap()));
    let set: CodePointInversionList = all.collect();
    assert_eq!(set.get_inversion_list_vec(), [0, 0xD800, 0xE000, 0x11_0000]);
}

#[test]
fn ranges() {
    // An empty range adds nothing, and one that ends above the code space is ignored.
    let ranges = [
        7..=9,
        0x10_FFFF..=0x10_FFFF,
        1..=6,
        90..=80,
        60..=0x11_0000,
        20..=20,
    ];
    let set: CodePointInversionList = ranges.into_iter().collect();
    assert_eq!(
        set.get_inversion_list_vec(),
        [1, 10, 20, 21, 0x10_FFFF, 0x11_0000]
    );
    assert!(CodePointInversionList::from_iter([5..=4]).is_empty());
}
