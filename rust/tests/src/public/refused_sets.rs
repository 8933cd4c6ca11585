//! Functions of sets, with each of their allocations failing in turn: the function reports it,
//! nothing panics, and what it borrows is unchanged.

use bekstaudi::codepointinvlist::serialized::{SerializedSetError, from_serialized, to_serialized};
use bekstaudi::codepointinvlist::{
    CodePointInversionList, CodePointInversionListBuilder, FrozenCodePointSet,
    FrozenCodePointSetAndStrings, SetError,
};
use bekstaudi::codepointinvliststringlist::{
    CodePointInversionListAndStringList, CodePointInversionListAndStringListBuilder,
};
use bekstaudi::zerovec::{MemoryError, PotentialCodePoint, ZeroVec};
use refusing::{asks_for_nothing, refused_in_turn, unchanged_where_refused};

/// Letters. The first ones form a range.
fn letters() -> CodePointInversionList<'static> {
    ('b'..='m')
        .chain(['p', 'r', 'x', 'é', '\u{1F600}'])
        .collect()
}

/// Every third letter, and Kana.
fn other() -> CodePointInversionList<'static> {
    ('a'..='z')
        .step_by(3)
        .chain('\u{3040}'..='\u{30FF}')
        .collect()
}

/// A builder of the letters without spare capacity, since a clone has none.
fn full() -> CodePointInversionListBuilder {
    let mut builder = CodePointInversionListBuilder::new();
    builder.add_set(&letters());
    builder.clone()
}

/// A method that changes a builder, with its name.
type Change = (
    &'static str,
    fn(&mut CodePointInversionListBuilder, &CodePointInversionList) -> Result<(), MemoryError>,
);

const CHANGES: [Change; 17] = [
    ("CodePointInversionListBuilder::try_add_char", |it, _| {
        it.try_add_char('t')
    }),
    ("CodePointInversionListBuilder::try_add32", |it, _| {
        it.try_add32(0x10_FFFF)
    }),
    ("CodePointInversionListBuilder::try_add_range", |it, _| {
        it.try_add_range('0'..='9')
    }),
    ("CodePointInversionListBuilder::try_add_range32", |it, _| {
        it.try_add_range32(0x100..0x200)
    }),
    ("CodePointInversionListBuilder::try_add_set", |it, other| {
        it.try_add_set(other)
    }),
    ("CodePointInversionListBuilder::try_remove_char", |it, _| {
        it.try_remove_char('d')
    }),
    ("CodePointInversionListBuilder::try_remove32", |it, _| {
        it.try_remove32(0x64)
    }),
    (
        "CodePointInversionListBuilder::try_remove_range",
        |it, _| it.try_remove_range('d'..'f'),
    ),
    (
        "CodePointInversionListBuilder::try_remove_range32",
        |it, _| it.try_remove_range32(0x64..=0x66),
    ),
    (
        "CodePointInversionListBuilder::try_remove_set",
        |it, other| it.try_remove_set(other),
    ),
    (
        "CodePointInversionListBuilder::try_retain_set",
        |it, other| it.try_retain_set(other),
    ),
    (
        "CodePointInversionListBuilder::try_complement_char",
        |it, _| it.try_complement_char('d'),
    ),
    (
        "CodePointInversionListBuilder::try_complement32",
        |it, _| it.try_complement32(0x64),
    ),
    (
        "CodePointInversionListBuilder::try_complement_range",
        |it, _| it.try_complement_range('c'..='e'),
    ),
    (
        "CodePointInversionListBuilder::try_complement_range32",
        |it, _| it.try_complement_range32(0x63..0x66),
    ),
    (
        "CodePointInversionListBuilder::try_complement_set",
        |it, other| it.try_complement_set(other),
    ),
    ("CodePointInversionListBuilder::try_complement", |it, _| {
        it.try_complement()
    }),
];

#[test]
fn changes() {
    let (whole, other) = (letters(), other());
    for (name, change) in CHANGES {
        let change = |builder: &mut CodePointInversionListBuilder| change(builder, &other).is_ok();
        unchanged_where_refused(name, full, change, |it| it.clone().build() == whole);
    }
}

#[test]
fn sets() {
    let (set, builder) = (letters(), full());
    let ends = set.get_inversion_list_vec();
    refused_in_turn("CodePointInversionListBuilder::try_clone", || {
        builder.try_clone().ok()
    });
    // Building consumes the builder, so each turn first makes a new one.
    refused_in_turn("CodePointInversionListBuilder::try_build", || {
        builder.try_clone().ok()?.try_build().ok()
    });
    refused_in_turn("CodePointInversionList::try_clone", || set.try_clone().ok());
    refused_in_turn("CodePointInversionList::try_get_inversion_list_vec", || {
        set.try_get_inversion_list_vec().ok()
    });
    refused_in_turn("CodePointInversionList::try_from_range", || {
        CodePointInversionList::try_from_range('a'..'z').ok()
    });
    refused_in_turn("CodePointInversionList::try_from_iter", || {
        CodePointInversionList::try_from_iter(set.iter_ranges()).ok()
    });
    refused_in_turn(
        "CodePointInversionList::try_from_u32_inversion_list_slice_fallible",
        || CodePointInversionList::try_from_u32_inversion_list_slice_fallible(&ends).ok(),
    );
    assert_eq!(set, letters());
}

/// A set over borrowed bytes has to copy them.
#[test]
fn lent_sets() {
    let set = letters();
    let bytes = set.as_inversion_list().as_bytes().to_vec();
    let lent = || ZeroVec::<PotentialCodePoint>::parse_bytes(&bytes).ok();
    refused_in_turn("CodePointInversionList::try_into_owned", || {
        CodePointInversionList::try_from_inversion_list_fallible(lent()?)
            .ok()?
            .try_into_owned()
            .ok()
    });
    // A list that is not a set's is returned as a copy.
    let odd = ZeroVec::<PotentialCodePoint>::parse_bytes(&bytes[3..]).expect("no ends");
    refused_in_turn(
        "CodePointInversionList::try_from_inversion_list_fallible",
        || match CodePointInversionList::try_from_inversion_list_fallible(
            odd.as_slice().as_zerovec(),
        ) {
            Err(SetError::Invalid(given_back)) => Some(given_back),
            Err(SetError::Memory) => None,
            _ => unreachable!(),
        },
    );
}

#[test]
fn serialized_sets() {
    let set = letters();
    let units = to_serialized(&set).expect("no memory");
    refused_in_turn("serialized::to_serialized", || to_serialized(&set).ok());
    refused_in_turn("serialized::from_serialized", || {
        match from_serialized(&units) {
            Ok(read) => Some(read),
            Err(error) => {
                assert_eq!(error, SerializedSetError::Memory);
                None
            }
        }
    });
    assert_eq!(from_serialized(&units), Ok((set, units.len())));
}

#[test]
fn frozen_sets() {
    let set = letters();
    let frozen = FrozenCodePointSet::freeze(&set);
    refused_in_turn("FrozenCodePointSet::try_freeze", || {
        FrozenCodePointSet::try_freeze(&set).ok()
    });
    refused_in_turn("FrozenCodePointSet::try_clone", || frozen.try_clone().ok());
    assert!(frozen.contains('x') && !frozen.contains('y'));
}

#[test]
fn sets_with_texts() {
    let texts = ["a", "abc", "x", "xyz", "ß"];
    let made = || CodePointInversionListAndStringList::try_from_iter(texts.into_iter()).ok();
    refused_in_turn("CodePointInversionListAndStringList::try_from_iter", made);
    let set = made().expect("no memory");
    refused_in_turn("CodePointInversionListAndStringList::try_clone", || {
        set.try_clone().ok()
    });
    refused_in_turn("CodePointInversionListAndStringList::try_into_owned", || {
        let ends = ZeroVec::parse_bytes(&[0x41, 0, 0, 0x5B, 0, 0]).ok()?;
        let letters = CodePointInversionList::try_from_inversion_list_fallible(ends).ok()?;
        let lent = CodePointInversionListAndStringList::try_from(letters, Vec::new());
        lent.ok()?.try_into_owned().ok()
    });
    refused_in_turn("FrozenCodePointSetAndStrings::try_freeze", || {
        FrozenCodePointSetAndStrings::try_freeze(&set).ok()
    });
    let frozen = FrozenCodePointSetAndStrings::freeze(&set);
    refused_in_turn("FrozenCodePointSetAndStrings::try_clone", || {
        frozen.try_clone().ok()
    });
    assert!(frozen.contains_str("xyz") && set.contains_str("abc"));
}

/// A method that changes a builder of sets with strings, with its name.
type StringChange = (
    &'static str,
    fn(
        &mut CodePointInversionListAndStringListBuilder,
        &CodePointInversionListAndStringList,
    ) -> Result<(), MemoryError>,
);

const STRING_CHANGES: [StringChange; 7] = [
    ("try_add_str", |it, _| it.try_add_str("new")),
    ("try_add_str of a character", |it, _| it.try_add_str("t")),
    ("try_remove_str of a character", |it, _| it.try_remove_str("d")),
    ("try_add_set", |it, other| it.try_add_set(other)),
    ("try_remove_set", |it, other| it.try_remove_set(other)),
    ("try_retain_set", |it, other| it.try_retain_set(other)),
    ("try_complement", |it, _| it.code_points_mut().try_complement()),
];

#[test]
fn builders_of_texts() {
    let whole = CodePointInversionListAndStringList::try_from(letters(), vec!["ab".into(), "xy".into()]);
    let other = CodePointInversionListAndStringList::try_from(other(), vec!["ab".into(), "z!".into()]);
    let (whole, other) = (whole.expect("sorted"), other.expect("sorted"));
    let full = || {
        let mut builder = CodePointInversionListAndStringListBuilder::new();
        builder.add_set(&whole);
        builder.clone()
    };
    for (name, change) in STRING_CHANGES {
        let change = |builder: &mut CodePointInversionListAndStringListBuilder| change(builder, &other).is_ok();
        unchanged_where_refused(name, full, change, |it| it.clone().build() == whole);
    }
    let mut builder = full();
    asks_for_nothing("try_remove_str", || builder.try_remove_str("ab")).expect("no memory");
    assert_eq!(builder.build().strings(), ["xy"]);
    // Building consumes the builder, so each turn first makes a new one.
    refused_in_turn("CodePointInversionListAndStringListBuilder::try_build", || {
        let mut builder = CodePointInversionListAndStringListBuilder::new();
        builder.try_add_set(&whole).ok()?;
        builder.try_build().ok()
    });
}
