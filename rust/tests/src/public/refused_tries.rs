//! Functions of tries, unit tries and packed vectors, with each of their allocations failing in turn: the
//! function reports it, nothing panics, and what it borrows is unchanged.

use bekstaudi::char16trie::{AddError, Char16Trie, Char16TrieBuilder};
use bekstaudi::codepointtrie::binary::{SwappedError, WriteError, from_binary_swapped, to_binary};
use bekstaudi::codepointtrie::{
    ApplyRefused, BuildError, CodePointTrie, CodePointTrieBuilder, TrieType, Write, binary,
    try_build_from_writes,
};
use bekstaudi::zerovec::ZeroVec;
use refusing::{asks_for_nothing, refused_at, refused_in_turn, unchanged_where_refused};

// Functions of tries, with each of their allocations failing in turn: the function reports it,
// nothing panics, and what it borrows is unchanged.

/// Writes of ranges and of single values, some of them in the plane of Emoji.
fn writes() -> Vec<Write<u16>> {
    let ranges = (0..60u16).map(|i| {
        let start = u32::from(i) * 0x333;
        Write::Range(start..=start + 0x40, i)
    });
    ranges
        .chain((0..60u16).map(|i| Write::One(0x1_F600 + u32::from(i) * 7, i + 1)))
        .collect()
}

fn builder(trie_type: TrieType) -> CodePointTrieBuilder<u16> {
    let mut builder = CodePointTrieBuilder::new(0u16, 999, trie_type);
    builder.apply(&writes()).expect("no memory");
    builder
}

/// Whether the builder has the same map as the trie.
fn is_map_of(builder: &CodePointTrieBuilder<u16>, trie: &CodePointTrie<'_, u16>) -> bool {
    let mut next = 0;
    while let Some(range) = builder.get_range(next) {
        if trie.get_range(next) != Some(range.clone()) || builder.get(next) != range.value {
            return false;
        }
        next = range.range.end() + 1;
    }
    next == 0x11_0000
}

/// The result of a builder, or `None` if an allocation failed.
fn built<T>(answer: Result<T, BuildError>) -> Option<T> {
    match answer {
        Ok(trie) => Some(trie),
        Err(error) => {
            assert_eq!(error, BuildError::Memory);
            None
        }
    }
}

#[test]
fn builders() {
    let writes = writes();
    for trie_type in [TrieType::Fast, TrieType::Small] {
        let made = || CodePointTrieBuilder::new(7u16, 999, trie_type);
        let empty = made().build();
        let is_as_made = |it: &CodePointTrieBuilder<u16>| is_map_of(it, &empty);
        unchanged_where_refused(
            "CodePointTrieBuilder::try_set_value",
            made,
            |it| it.try_set_value(0x10_0000, 8).is_ok(),
            is_as_made,
        );
        unchanged_where_refused(
            "CodePointTrieBuilder::try_set_range_value",
            made,
            |it| it.try_set_range_value(0x5_0005..=0x7_7777, 8).is_ok(),
            is_as_made,
        );
        let whole = builder(trie_type).build();
        refused_in_turn("CodePointTrieBuilder::try_from_trie", || {
            CodePointTrieBuilder::try_from_trie(&whole).ok()
        });
        refused_in_turn("codepointtrie::try_build_from_writes", || {
            built(try_build_from_writes(0, 999, trie_type, &writes))
        });
    }
}

/// Building consumes the builder, so each turn first makes a new one.
#[test]
fn builds() {
    for trie_type in [TrieType::Fast, TrieType::Small] {
        let whole = builder(trie_type).build();
        for place in 0.. {
            let builder = builder(trie_type);
            let (trie, is_refused) = refused_at(place, || built(builder.try_build()));
            assert_eq!(
                trie.is_none(),
                is_refused,
                "CodePointTrieBuilder::try_build"
            );
            if let Some(trie) = trie {
                assert!(place > 2 && trie == whole);
                break;
            }
        }
    }
}

/// The writes before the one whose allocation failed are made, and no others.
#[test]
fn writes_up_to_a_refusal() {
    let writes = writes();
    for place in 0.. {
        let mut builder = CodePointTrieBuilder::new(0u16, 999, TrieType::Small);
        let (applied, is_refused) = refused_at(place, || builder.apply(&writes));
        let made = match applied {
            Ok(()) => writes.len(),
            Err(ApplyRefused(made)) => made,
        };
        assert_eq!(applied.is_err(), is_refused, "CodePointTrieBuilder::apply");
        let front = try_build_from_writes(0, 999, TrieType::Small, &writes[..made]);
        assert!(is_map_of(&builder, &front.expect("no memory")));
        if !is_refused {
            assert!(place > 2);
            return;
        }
    }
}

#[test]
fn tries() {
    for trie_type in [TrieType::Fast, TrieType::Small] {
        let trie = builder(trie_type).build();
        let (header, index, values) = trie.parts();
        let (index, values): (Vec<u16>, Vec<u16>) =
            (index.iter().collect(), values.iter().collect());
        refused_in_turn("CodePointTrie::try_clone", || trie.try_clone().ok());
        refused_in_turn("CodePointTrie::try_into_owned", || {
            let (header, index, values) = trie.parts();
            let lent = CodePointTrie::try_new(header, index.as_zerovec(), values.as_zerovec());
            lent.ok()?.try_into_owned().ok()
        });
        refused_in_turn("CodePointTrie::try_get_set_where", || {
            trie.try_get_set_where(|value| value % 3 == 1).ok()
        });
        refused_in_turn("CodePointTrie::try_get_set_for_value", || {
            trie.try_get_set_for_value(3).ok()
        });
        refused_in_turn("CodePointTrie::try_alloc_map_value_fallible", || {
            trie.try_alloc_map_value_fallible(|it| Ok::<u32, ()>(u32::from(it) * 2))
                .ok()
        });
        refused_in_turn("CodePointTrie::alloc_from_slices", || {
            CodePointTrie::alloc_from_slices(header, &index, &values).ok()
        });
        assert!(trie == builder(trie_type).build());
    }
}

#[test]
fn binary_forms() {
    for trie_type in [TrieType::Fast, TrieType::Small] {
        let trie = builder(trie_type).build();
        let bytes = to_binary(&trie).expect("no memory");
        refused_in_turn("binary::to_binary", || match to_binary(&trie) {
            Ok(bytes) => Some(bytes),
            Err(error) => {
                assert_eq!(error, WriteError::Memory);
                None
            }
        });
        let swapped = swapped(&bytes);
        refused_in_turn(
            "binary::from_binary_swapped",
            || match from_binary_swapped::<u16>(&swapped) {
                Ok((read, len)) => Some(assert!(read == trie && len == bytes.len())),
                Err(error) => {
                    assert_eq!(error, SwappedError::Memory);
                    None
                }
            },
        );
        expect_quiet(&trie, &bytes);
    }
}

/// The form on a big-endian machine: first a number of 32 bits, then numbers of 16 bits.
fn swapped(bytes: &[u8]) -> Vec<u8> {
    let front = bytes[..4].iter().rev();
    front
        .chain(bytes[4..].chunks(2).flat_map(|it| it.iter().rev()))
        .copied()
        .collect()
}

/// The functions of the binary form that return the same errors and allocate nothing.
fn expect_quiet(trie: &CodePointTrie<'_, u16>, bytes: &[u8]) {
    let mut written = vec![0; bytes.len()];
    let len = asks_for_nothing("binary::binary_len", || binary::binary_len(trie));
    assert_eq!(len, Ok(bytes.len()));
    let len = asks_for_nothing("binary::write_binary", || {
        binary::write_binary(trie, &mut written)
    });
    assert_eq!(len, Ok(bytes.len()));
    assert_eq!(written, bytes);
}

// Functions of unit tries and packed vectors, with each of their allocations failing in turn: the
// function reports it, nothing panics, and what it borrows is unchanged.

/// Keys of different lengths. Some end with the first half of a surrogate pair.
fn keys() -> Vec<Vec<u16>> {
    (0..400u16)
        .map(|i| {
            let key = [
                0x61 + i % 26,
                0x61 + i / 26,
                0x3040 + i % 7,
                0xD83D,
                0xDE00 + i % 5,
            ];
            key[..usize::from(i % 4) + 2].to_vec()
        })
        .collect()
}

fn unit_trie_builder(keys: &[Vec<u16>]) -> Char16TrieBuilder {
    let mut unit_trie_builder = Char16TrieBuilder::new();
    for (key, i) in keys.iter().zip(0..) {
        unit_trie_builder.add(key, i * 977).expect("not added");
    }
    unit_trie_builder
}

/// Building consumes the unit_trie_builder, so each turn first makes a new one.
fn trie(keys: &[Vec<u16>], place: usize) -> (Option<Char16Trie<'static>>, bool) {
    let unit_trie_builder = unit_trie_builder(keys);
    refused_at(place, || unit_trie_builder.try_build().ok())
}

#[test]
fn unit_trie_builders() {
    let keys = keys();
    for place in 0.. {
        let (trie, is_refused) = trie(&keys, place);
        assert_eq!(trie.is_none(), is_refused, "Char16TrieBuilder::try_build");
        if let Some(trie) = trie {
            assert!(place > 20 && trie.iter2().count() == 400);
            break;
        }
    }
    let added = |answer: Result<(), AddError>| match answer {
        Ok(()) => true,
        Err(error) => {
            assert_eq!(error, AddError::Memory);
            false
        }
    };
    // With this many keys the list of keys is full.
    let some = || unit_trie_builder(&keys[..64]);
    let is_some = |it: &Char16TrieBuilder| it.len() == 64;
    let add = |it: &mut Char16TrieBuilder| added(it.add(&[0xE000, 0xE000], 1));
    unchanged_where_refused("Char16TrieBuilder::add", some, add, is_some);
    let add_str = |it: &mut Char16TrieBuilder| added(it.add_str("ÿÿ", 1));
    unchanged_where_refused("Char16TrieBuilder::add_str", some, add_str, is_some);
    let mut sorted = keys.clone();
    sorted.sort();
    let entries: Vec<(&[u16], i32)> = sorted.iter().map(Vec::as_slice).zip(0..).collect();
    let built = || Char16TrieBuilder::build_sorted(&entries).ok();
    refused_in_turn("Char16TrieBuilder::build_sorted", built);
    assert_eq!(built().map(|it| it.iter2().count()), Some(400));
}

#[test]
fn unit_tries() {
    let whole = trie(&keys(), usize::MAX).0.expect("no trie");
    refused_in_turn("Char16Trie::try_clone", || whole.try_clone().ok());
    refused_in_turn("Char16Trie::try_into_owned", || {
        Char16Trie::new(whole.data.as_slice().as_zerovec())
            .try_into_owned()
            .ok()
    });
    refused_in_turn("Iter2::next", || {
        whole.try_iter2().all(|it| it.is_ok()).then_some(())
    });
    assert_eq!(whole.iter2().count(), 400);
    refused_in_turn("Char16Trie::try_is_trie", || {
        whole.try_is_trie().ok().filter(|it| *it)
    });
    refused_in_turn("Char16Trie::try_count_entries", || {
        whole.try_count_entries().ok()
    });
    refused_in_turn("Char16TrieCursor::try_next_units", || {
        whole.cursor().try_next_units().ok()
    });
    refused_in_turn("Char16TrieCursor::try_unique_value", || {
        whole.cursor().try_unique_value().ok()
    });
    refused_in_turn("Entries::try_advance", || {
        let mut entries = whole.entries();
        let mut count = 0;
        while entries.try_advance().ok()? {
            count += 1;
        }
        (count == 400).then_some(())
    });
    assert_eq!((whole.is_trie(), whole.count_entries()), (true, Some(400)));
    assert_eq!(whole.cursor().next_units()[..2], [0x61, 0x62]);
    assert_eq!(whole.cursor().unique_value(), None);
}

#[test]
fn packed_vectors() {
    let values = [1u32, 0x10FFFF, 7];
    refused_in_turn("ZeroVec::alloc_from_slice", || {
        ZeroVec::alloc_from_slice(&values).ok()
    });
    refused_in_turn("ZeroVec::alloc_from_iter", || {
        ZeroVec::alloc_from_iter((0..99u32).filter(|it| it % 7 > 0)).ok()
    });
    let lent = || ZeroVec::<u16>::parse_bytes(&[1, 2, 3, 4]).ok();
    refused_in_turn("ZeroVec::try_clone", || lent()?.try_clone().ok());
    refused_in_turn("ZeroVec::try_into_owned", || lent()?.try_into_owned().ok());
}
