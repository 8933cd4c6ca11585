//! Damaged tries and unit tries, changed at random. They are rejected, or work without a panic, and all
//! functions agree on them.

mod random;

use bekstaudi::char16trie::{
    Char16Trie, Char16TrieBuilder, Char16TrieCursor, CursorPlace, TrieResult,
};
use bekstaudi::codepointinvlist::CodePointInversionList;
use bekstaudi::codepointtrie::binary::{
    AnyWidthTrie, SwappedError, binary_len, from_binary, from_binary_any, from_binary_swapped,
    to_binary, write_binary,
};
use bekstaudi::codepointtrie::{
    CodePointTrie, CodePointTrieBuilder, CodePointTrieHeader, TrieType, TrieValue, Typed,
    TypedCodePointTrie, text,
};
use bekstaudi::zerovec::ZeroVec;
use random::{Random, damaged_units};
use std::fmt::Debug;

// Damaged tries: headers, indices, data and binary forms, changed at random. They are rejected, or
// work without a panic, and all functions agree on them.

const ROUNDS: usize = 34_000;

fn trie<T: TrieValue + From<u8>>(trie_type: TrieType) -> CodePointTrie<'static, T> {
    let mut builder = CodePointTrieBuilder::new(T::from(0), T::from(255), trie_type);
    for i in 0..90u8 {
        let start = u32::from(i) * 0x333;
        builder.set_range_value(start..=start + 0x40, T::from(i));
    }
    builder.set_value(0x10_0000, T::from(7));
    builder.build()
}

/// Expects that all look-ups in a trie agree.
fn ask<T: TrieValue + Debug>(trie: &CodePointTrie<'_, T>, random: &mut Random) {
    let is_coherent = trie.is_coherent();
    for _ in 0..8 {
        let c = random.below(0x11_1000) as u32;
        let answer = trie.get32(c);
        assert_eq!(trie.get32_u32(c), answer.to_u32());
        let bytes = trie.get32_ule(c);
        assert!(bytes.is_none_or(|it| T::from_unaligned(it) == Some(answer)));
        if let Some(c) = char::from_u32(c) {
            assert_eq!(trie.get(c), answer);
        }
        match trie.as_typed_ref() {
            Typed::Fast(typed) => assert_eq!(typed.get32(c), answer),
            Typed::Small(typed) => assert_eq!(typed.get32(c), answer),
        }
        if is_coherent {
            let range = trie.get_range(c);
            assert_eq!(range.is_some(), c < 0x11_0000);
            assert!(range.is_none_or(|it| it.value == answer && it.range.contains(&c)));
        } else {
            let _ = trie.get_range(c);
        }
    }
    let line = "\0az\u{7F}\u{80}\u{333}\u{FFFF}\u{10000}";
    assert!(text::values_of(trie, line).all(|(c, value)| value == trie.get(c)));
    assert!(text::values_of_utf8(trie, line.as_bytes()).eq(text::values_of(trie, line)));
    let units: Vec<u16> = line.encode_utf16().collect();
    let values = text::values_of_utf16(trie, &units);
    assert!(values.eq(text::values_of(trie, line).map(|(c, value)| (u32::from(c), value))));
    assert!(trie.iter_ranges().take(300).count() > 0 || trie.get_range(0).is_none());
}

/// Tests what can be made of a trie, which takes longer: the set of a value, a builder, and the
/// binary form.
fn ask_at_length(trie: &CodePointTrie<'_, u8>, random: &mut Random) {
    let value = trie.get32(random.below(0x11_0000) as u32);
    let set = trie.get_set_for_value(value);
    let ranges: CodePointInversionList = trie.iter_ranges_for_value(value).collect();
    let _ = trie
        .iter_ranges_mapped(|it| it.to_u32() % 2)
        .take(300)
        .count();
    let is_coherent = trie.is_coherent();
    assert!(set == ranges || !is_coherent);
    let signed = trie
        .clone()
        .try_into_converted::<i8>()
        .expect("not converted");
    let builder = CodePointTrieBuilder::from_trie(trie);
    for _ in 0..30 {
        let c = random.below(0x11_0800) as u32;
        let answer = trie.get32(c);
        assert_eq!((builder.get(c), signed.get32(c)), (answer, answer as i8));
        let range = builder.get_range(c);
        assert_eq!(range.is_some(), c < 0x11_0000);
        assert!(range.is_none_or(|it| it.value == answer && it.range.contains(&c)));
        assert!(set.contains32(c) == (c < 0x11_0000 && answer == value) || !is_coherent);
    }
    if let Ok(built) = builder.try_build() {
        let c = random.below(0x11_0800) as u32;
        assert_eq!(built.get32(c), trie.get32(c));
    }
}

/// Expects that a trie that its binary form has room for is written, and read again.
fn expect_written(trie: &CodePointTrie<'_, u8>) {
    let Ok(bytes) = to_binary(trie) else {
        assert_eq!(to_binary(trie).err(), binary_len(trie).err());
        return;
    };
    let mut written = vec![0; bytes.len()];
    assert_eq!(write_binary(trie, &mut written), Ok(bytes.len()));
    let (read, len) = from_binary::<u8>(&written).expect("not read");
    assert!(written == bytes && len == bytes.len());
    assert!(
        (0..0x11_0100)
            .step_by(0xFFF)
            .all(|c| read.get32(c) == trie.get32(c))
    );
}

fn damaged_header(random: &mut Random, header: CodePointTrieHeader) -> CodePointTrieHeader {
    let mut header = header;
    match random.below(6) {
        0 => header.high_start = (random.below(0x880) << 9) as u32,
        1 => header.shifted12_high_start = random.below(0x111) as u16,
        2 => header.index3_null_offset = random.below(0x1_0000) as u16,
        3 => header.data_null_offset = random.below(0x10_0000) as u32,
        4 => header.null_value = random.below(300) as u32,
        _ => header.trie_type = TrieType::Small,
    }
    header
}

#[test]
fn parts() {
    let mut random = Random(1);
    let whole = [trie::<u8>(TrieType::Fast), trie(TrieType::Small)];
    let mut taken = 0;
    for round in 0..ROUNDS {
        let (header, index, data) = whole[round % 2].parts();
        let (mut index, mut data) = (index.as_bytes().to_vec(), data.as_bytes().to_vec());
        match round % 3 {
            0 => random.damage(&mut index),
            1 => random.damage(&mut data),
            _ => {}
        }
        let header = damaged_header(&mut random, header);
        let Ok(index) = ZeroVec::parse_bytes(&index) else {
            continue;
        };
        let data = ZeroVec::parse_bytes(&data).expect("bytes are values");
        if let Ok(trie) = CodePointTrie::try_new(header, index, data) {
            taken += 1;
            ask(&trie, &mut random);
            if taken % 100 == 0 {
                ask_at_length(&trie, &mut random);
                expect_written(&trie);
            }
        }
    }
    assert!(taken > 1_000, "{taken}");
}

/// Bytes that are no trie, after the start of a header.
#[test]
fn made_up_binary_forms() {
    let mut random = Random(2);
    for _ in 0..ROUNDS {
        let mut bytes = b"3irT".to_vec();
        bytes.extend((0..3_000 + random.below(40)).map(|it| (it * 7) as u8));
        bytes[4] = random.one_of(&[0x40, 0x81, 0, 0x42]);
        random.damage(&mut bytes);
        if let Ok((trie, len)) = from_binary::<u8>(&bytes) {
            assert!(len <= bytes.len());
            ask(&trie, &mut random);
        }
        let _ = from_binary_any(&bytes);
    }
}

/// The bytes in the other byte order. In a trie of 16 bits, all numbers but the first have 16 bits.
fn swapped(bytes: &[u8]) -> Vec<u8> {
    let (front, rest) = bytes.split_at(bytes.len().min(4));
    front
        .iter()
        .rev()
        .chain(rest.chunks(2).flat_map(|it| it.iter().rev()))
        .copied()
        .collect()
}

#[test]
fn binary_forms() {
    let mut random = Random(3);
    let written = |it| to_binary(&trie::<u16>(it)).expect("not written");
    let whole = [written(TrieType::Fast), written(TrieType::Small)];
    let mut taken = 0;
    for round in 0..ROUNDS / 2 {
        // Changes a bit of the header, a byte of its fields, or bytes anywhere.
        let mut bytes = whole[round % 2].clone();
        match round % 3 {
            0 => bytes[random.below(16)] ^= 1 << random.below(8),
            1 => bytes[4 + random.below(12)] = random.below(256) as u8,
            _ => random.damage(&mut bytes),
        }
        let read = from_binary::<u16>(&bytes);
        let from_other_order = from_binary_swapped::<u16>(&swapped(&bytes));
        match (&read, from_binary_any(&bytes)) {
            (Ok((trie, len)), Ok((AnyWidthTrie::Bits16(any), any_len))) => {
                assert!(*trie == any && *len == any_len && any_len <= bytes.len());
                assert!(from_other_order.is_ok_and(|(other, len)| other == any && len == any_len));
                assert_eq!(to_binary(trie).as_deref(), Ok(&bytes[..*len]));
                taken += 1;
                ask(trie, &mut random);
            }
            (Err(error), _) => {
                assert_eq!(from_other_order.err(), Some(SwappedError::Binary(*error)));
            }
            _ => panic!("read as another width"),
        }
    }
    assert!(taken > 1_000, "{taken}");
}

// Damaged unit tries: units changed at random, and positions that no cursor had. Functions return
// without a panic, and agree with each other.

fn whole() -> Char16Trie<'static> {
    let mut builder = Char16TrieBuilder::new();
    for i in 0..200u16 {
        let key = [0x61 + i % 26, 0x61 + i / 26, 0x3040 + i % 7];
        builder.add(&key, i32::from(i) * 77_777).expect("not added");
    }
    builder.try_build().expect("not built")
}

fn walk(trie: &Char16Trie<'_>, random: &mut Random) {
    let (mut iterator, mut cursor) = (trie.iter(), trie.cursor());
    let mut text = Vec::new();
    for _ in 0..6 {
        let unit = [
            0x61 + random.below(26),
            0x3040 + random.below(7),
            random.below(0x1_0000),
        ];
        let unit = random.one_of(&unit) as u16;
        text.push(unit);
        let result = iterator.next16(unit);
        cursor.step16(unit);
        let again = Char16TrieCursor::resume(trie.data.as_slice(), cursor.place());
        assert_eq!(again.value(), cursor.value());
        match result {
            TrieResult::Intermediate(value) | TrieResult::FinalValue(value) => {
                assert_eq!(cursor.value(), Some(value));
            }
            TrieResult::NoMatch | TrieResult::NoValue => {}
        }
    }
    assert_eq!(trie.matches(&text).last(), trie.longest_match(&text));
    let _ = (
        trie.longest_match_str("az\u{3041}"),
        trie.iter2().take(50).count(),
    );
}

#[test]
fn units() {
    let mut random = Random(8);
    let whole: Vec<u16> = whole().data.iter().collect();
    for _ in 0..ROUNDS {
        let units = damaged_units(&mut random, &whole);
        walk(&Char16Trie::new(units.into_iter().collect()), &mut random);
    }
}

#[test]
fn places() {
    let mut random = Random(9);
    let whole = whole();
    for _ in 0..ROUNDS {
        let position = [
            random.below(whole.data.len() + 2),
            usize::MAX - random.below(3),
            1 << 62,
        ];
        let left = [random.below(300) as u16, 0, 1, 256, u16::MAX];
        let place = CursorPlace {
            position: random.one_of(&position),
            left: random.one_of(&left),
        };
        let mut cursor = Char16TrieCursor::resume(whole.data.as_slice(), place);
        for _ in 0..4 {
            let _ = (cursor.value(), cursor.is_empty(), cursor.place());
            cursor.step32([0x61 + random.below(26) as u32, 0x3041, 0x1_F600][random.below(3)]);
        }
    }
}
