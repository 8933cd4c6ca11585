//! Damaged sets and vectors: lists of boundaries, serialized forms, lists of texts and packed
//! bytes, changed at random. They are rejected, or work without a panic, and all functions agree on
//! them.

mod random;

use bekstaudi::codepointinvlist::serialized::{
    from_serialized, serialized_len, to_serialized, write_serialized,
};
use bekstaudi::codepointinvlist::{
    CodePointInversionList, FrozenCodePointSet, FrozenCodePointSetAndStrings, is_valid_zv,
};
use bekstaudi::codepointinvliststringlist::CodePointInversionListAndStringList;
use bekstaudi::zerovec::ule::UleError;
use bekstaudi::zerovec::{PotentialCodePoint, ZeroVec};
use random::{Random, damaged_units};

const ROUNDS: usize = 34_000;

/// Forty ranges, some of them above U+FFFF.
fn whole() -> CodePointInversionList<'static> {
    let start = |it: u32| if it < 30 { it * 99 } else { it * 0x5555 };
    (0..40u32).map(|it| start(it)..=start(it) + 30).collect()
}

/// Expects that all functions agree on what a set contains.
fn ask(set: &CodePointInversionList<'_>, random: &mut Random) {
    let ends = set.get_inversion_list_vec();
    let frozen = FrozenCodePointSet::freeze(set);
    for _ in 0..4 {
        let c = random.below(0x11_1000) as u32;
        let is_held = ends.partition_point(|it| *it <= c) % 2 == 1;
        assert_eq!((set.contains32(c), frozen.contains32(c)), (is_held, is_held));
        assert_eq!(set.position32(c).is_some(), is_held);
    }
    let text = "a\u{80}\u{7FF}\u{FFFF}\u{1F600}\u{10FFFF}b";
    for held in [true, false] {
        assert_eq!(set.span(text, held), frozen.span(text, held));
        assert_eq!(set.span_back(text, held), frozen.span_back(text, held));
        assert!(frozen.span_utf8(&text.as_bytes()[random.below(9)..], held) <= text.len());
    }
    assert_eq!(set.iter_ranges().map(|it| it.count()).sum::<usize>(), set.size());
}

#[test]
fn lists_of_ends() {
    let mut random = Random(4);
    let whole = whole();
    for round in 0..ROUNDS {
        let mut ends = whole.get_inversion_list_vec();
        let place = random.below(ends.len());
        ends[place] = [0, u32::MAX, 0x11_0000, random.below(5_000) as u32][random.below(4)];
        if random.below(8) == 0 {
            ends.pop();
        }
        let rises = ends.windows(2).all(|it| it[0] < it[1]) && ends[ends.len() - 1] <= 0x11_0000;
        let is_valid = rises && ends.len() % 2 == 0;
        let copied = CodePointInversionList::try_from_u32_inversion_list_slice_fallible(&ends);
        assert_eq!(copied.is_ok(), is_valid);
        let points = ends.iter().map(|it| PotentialCodePoint::try_from((*it).min(0xFF_FFFF)));
        let points: ZeroVec<_> = points.map(|it| it.expect("24 bits")).collect();
        assert_eq!(is_valid_zv(&points), is_valid);
        match CodePointInversionList::try_from_inversion_list_fallible(points) {
            Ok(set) => {
                assert!(copied.is_ok_and(|it| it == set));
                if round % 10 == 0 {
                    ask(&set, &mut random);
                }
            }
            Err(_) => assert!(!is_valid),
        }
    }
}

#[test]
fn serialized_sets() {
    let mut random = Random(5);
    let whole = to_serialized(&whole()).expect("not written");
    let mut taken = 0;
    for _ in 0..ROUNDS {
        let units = damaged_units(&mut random, &whole);
        let Ok((set, len)) = from_serialized(&units) else { continue };
        assert!(len <= units.len());
        taken += 1;
        if taken % 10 == 0 {
            ask(&set, &mut random);
        }
        let written = to_serialized(&set).expect("not written");
        assert_eq!(serialized_len(&set), Some(written.len()));
        let mut target = vec![7; written.len() + 1];
        assert_eq!(write_serialized(&set, &mut target), Ok(written.len()));
        assert_eq!((&target[..written.len()], target[written.len()]), (&written[..], 7));
        assert!(write_serialized(&set, &mut target[1..written.len()]).is_err());
        assert_eq!(from_serialized(&written), Ok((set, written.len())));
    }
    assert!(taken > 1_000, "{taken}");
}

/// Texts ascend, and none has exactly one character.
#[test]
fn lists_of_texts() {
    let mut random = Random(6);
    let texts = ["", "a", "ab", "ß", "\u{1F600}", "\u{1F600}\u{1F600}", "zz"];
    for _ in 0..ROUNDS / 10 {
        let texts: Vec<&str> = (0..random.below(4)).map(|_| random.one_of(&texts)).collect();
        let is_valid = texts.windows(2).all(|it| it[0] < it[1])
            && texts.iter().all(|it| it.chars().count() != 1);
        let strings = texts.iter().map(|it| String::from(*it)).collect::<Vec<_>>();
        let made = CodePointInversionListAndStringList::try_from(whole(), strings);
        assert_eq!(made.is_ok(), is_valid, "{texts:?}");
        if let Ok(set) = made {
            let frozen = FrozenCodePointSetAndStrings::freeze(&set);
            for text in ["", "ab", "zz", "c"] {
                let is_held = texts.contains(&text) || text == "c";
                assert_eq!((set.contains_str(text), frozen.contains_str(text)), (is_held, is_held));
                assert_eq!(set.contains_utf8(text.as_bytes()), is_held);
            }
        }
    }
}

/// The error for the first cell whose three bytes are no character, if there is one.
fn first_fault(bytes: &[u8]) -> Option<UleError> {
    if bytes.len() % 3 > 0 {
        return Some(UleError::Length);
    }
    let number = |it: &[u8]| u32::from_le_bytes([it[0], it[1], it[2], 0]);
    bytes.chunks(3).position(|it| char::from_u32(number(it)).is_none()).map(UleError::Cell)
}

#[test]
fn packed_characters() {
    let mut random = Random(7);
    let whole: ZeroVec<char> = "aß\u{D7FF}\u{E000}\u{1F600}\u{10FFFF}".chars().collect();
    for _ in 0..ROUNDS {
        let mut bytes = whole.as_bytes().to_vec();
        random.damage(&mut bytes);
        let fault = first_fault(&bytes);
        let points = ZeroVec::<PotentialCodePoint>::parse_bytes(&bytes);
        assert_eq!(points.as_ref().err().copied(), fault.filter(|it| *it == UleError::Length));
        match ZeroVec::<char>::parse_bytes(&bytes) {
            Ok(read) => {
                assert!(fault.is_none() && read.iter().collect::<ZeroVec<_>>() == read);
                let points = points.expect("no points");
                assert!(points.iter().map(u32::from).eq(read.iter().map(u32::from)));
            }
            Err(error) => assert_eq!(Some(error), fault),
        }
        assert_eq!(ZeroVec::<char>::parse_owned(bytes).err(), fault);
    }
}
