//! A clone borrows what its original borrows, and `into_owned` copies only that.

use bekstaudi::char16trie::Char16Trie;
use bekstaudi::codepointinvlist::CodePointInversionList;
use bekstaudi::codepointinvliststringlist::CodePointInversionListAndStringList;
use bekstaudi::codepointtrie::planes::get_planes_trie;
use bekstaudi::codepointtrie::{
    CodePointTrie, FastCodePointTrie, SmallCodePointTrie, TypedCodePointTrie,
};
use bekstaudi::zerovec::ule::AsULE;
use bekstaudi::zerovec::{ZeroSlice, ZeroVec};

/// Returns where the bytes of each part are.
fn parts_of(trie: &CodePointTrie<'_, u8>) -> [*const u8; 2] {
    let (_, index, data) = trie.parts();
    [index.as_bytes().as_ptr(), data.as_bytes().as_ptr()]
}

/// Returns where the bytes of a vector are.
fn place_of<T: AsULE>(vector: &ZeroVec<'_, T>) -> *const u8 {
    vector.as_bytes().as_ptr()
}

const UNITS: [u8; 8] = [0x31, 0, 0x61, 0, 0x62, 0, 3, 0x80];
static WORDS: Char16Trie<'static> = Char16Trie::from_static(ZeroSlice::from_static(&UNITS));

#[test]
fn a_clone_of_what_is_borrowed_borrows() {
    let planes = get_planes_trie();
    assert_eq!(parts_of(&planes.clone()), parts_of(&planes));
    let small = SmallCodePointTrie::try_from(&planes).expect("not small");
    assert_eq!(parts_of(small.clone().as_untyped_ref()), parts_of(&planes));
    let vector = ZeroVec::<u16>::parse_bytes(&UNITS).expect("no vector");
    assert_eq!(place_of(&vector.clone()), UNITS.as_ptr());
    // The clone outlives the vector that it is made of.
    let clone: ZeroVec<'static, u16> = { WORDS.data.clone() };
    assert_eq!(place_of(&clone), place_of(&WORDS.data));
    assert_eq!(place_of(&WORDS.clone().data), place_of(&WORDS.data));
    assert!(FastCodePointTrie::try_from(&planes).is_err());
}

#[test]
fn a_clone_of_what_is_owned_is_a_copy() {
    let owned = get_planes_trie().into_owned();
    let copy = owned.clone();
    assert!(copy == owned && parts_of(&copy).iter().zip(parts_of(&owned)).all(|(it, other)| *it != other));
    let words = WORDS.clone().into_owned();
    assert!(words == WORDS && words == words.clone());
    assert!(place_of(&words.data) != place_of(&WORDS.data) && place_of(&words.clone().data) != place_of(&words.data));
}

#[test]
fn what_is_owned_stays_in_place() {
    let trie = get_planes_trie().try_clone().expect("no memory");
    let places = parts_of(&trie);
    assert_eq!(parts_of(&trie.into_owned()), places);
    let words = WORDS.try_clone().expect("no memory");
    let place = place_of(&words.data);
    assert_eq!(place_of(&words.into_owned().data), place);
}

#[test]
fn an_owned_value_outlives_its_bytes() {
    let bytes = UNITS.to_vec();
    let words = Char16Trie::new(ZeroVec::parse_bytes(&bytes).expect("no vector")).into_owned();
    let ends = [0x41, 0, 0, 0x5B, 0, 0].to_vec();
    let letters = ZeroVec::parse_bytes(&ends).map(CodePointInversionList::try_from_inversion_list);
    let letters = letters.expect("no vector").expect("no set");
    let texts = CodePointInversionListAndStringList::try_from(letters.clone(), vec!["ab".to_owned()]);
    let texts = texts.expect("not sorted");
    assert!(texts.clone() == texts && texts.clone().contains_str("ab"));
    let (letters, texts) = (letters.into_owned(), texts.into_owned());
    drop((bytes, ends));
    assert_eq!(words.longest_match_str("abc"), Some((2, 3)));
    assert!(letters.contains('Z') && texts.contains_str("ab") && texts.contains('Z') && texts.size() == 27);
}
