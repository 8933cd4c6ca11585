//! Functions that make sets of code points, and those that do not allocate.

use crate::icu_invlist::boundaries::Boundaries;
use crate::icu_invlist::codepointinvlist::utils::is_valid_slice;
use crate::icu_invlist::codepointinvlist::{
    CodePointInversionList, CodePointInversionListBuilder, SetError, is_valid_zv,
};
use crate::icu_zerovec::{PotentialCodePoint, ZeroVec};
use crate::memory::set_changes::{
    Addition, Change, Keeping, LETTERS, Operation, Removal, Turn, builder_of, copy_of_builder,
    expect_answer, expect_ends_of, full_builder_of, set_built,
};
use crate::memory::support::{
    all, basic, counts_of, expect, expect_ends, expect_listed, expect_same, list_of, list_of_ends,
    set_of, set_of_range, set_over, tell,
};
use crate::refusals::{each_refused, none_asked, say};
use crate::support::prelude::*;
use core::ops::RangeInclusive;

// Functions that make sets and lists.

/// Says that the call is done. Expects the set, if it was made, to have these boundaries.
fn expect_made(made: Option<CodePointInversionList<'_>>, ends: &[u32]) {
    tell(made.is_none());
    expect_ends_of(made, ends);
}

/// The builder has spare capacity, and the set that it makes does not.
///
/// Calls: `CodePointInversionListBuilder::try_build`.
#[test]
fn build_refused() {
    each_refused(|| {
        let Some(builder) = builder_of(&LETTERS) else {
            return;
        };
        say("call");
        let made = set_built(builder);
        expect_made(made, &LETTERS);
    });
}

/// Calls: `CodePointInversionListBuilder::try_clone`.
#[test]
fn try_clone_of_builder_refused() {
    each_refused(|| {
        let Some(builder) = builder_of(&LETTERS) else {
            return;
        };
        say("call");
        match copy_of_builder(&builder) {
            Some(other) => expect_answer(true, other, &LETTERS, &LETTERS),
            None => expect_answer(false, builder, &LETTERS, &LETTERS),
        }
    });
}

/// Returns the set of two ranges, or `None` if an allocation fails.
fn set_of_ranges(ranges: [RangeInclusive<u32>; 2]) -> Option<CodePointInversionList<'static>> {
    CodePointInversionList::try_from_iter(ranges.into_iter()).ok()
}

/// Ways to make a set.
enum Way {
    Ends,
    Letters,
    FromA,
    ToZ,
    All,
    Ranges,
    Owned,
}

/// Returns the set that is made this way, or `None` if an allocation fails.
fn made_by(way: &Way) -> Option<CodePointInversionList<'static>> {
    match way {
        Way::Ends => set_of(&LETTERS),
        Way::Letters => set_of_range('A'..='Z').ok(),
        Way::FromA => set_of_range('A'..).ok(),
        Way::ToZ => set_of_range(..='Z').ok(),
        Way::All => set_of_range(..).ok(),
        Way::Ranges => set_of_ranges([0..=0x3FFF, 0x4000..=0x7FFF]),
        Way::Owned => basic().try_into_owned().ok(),
    }
}

/// Each way, with the boundaries of the set.
static WAYS: [(Way, [u32; 2]); 7] = [
    (Way::Ends, LETTERS),
    (Way::Letters, LETTERS),
    (Way::FromA, [0x41, 0x11_0000]),
    (Way::ToZ, [0, 0x5B]),
    (Way::All, [0, 0x11_0000]),
    (Way::Ranges, [0, 0x8000]),
    (Way::Owned, [0, 0x1_0000]),
];

/// Calls: `CodePointInversionList::try_from_u32_inversion_list_slice_fallible`,
/// `CodePointInversionList::try_from_range`, `CodePointInversionList::try_from_iter`,
/// `CodePointInversionList::try_into_owned`.
#[test]
fn made_refused() {
    each_refused(|| {
        for (way, ends) in WAYS.iter() {
            say("call");
            let made = made_by(way);
            expect_made(made, ends);
        }
    });
}

/// Calls: `CodePointInversionList::from_valid_slice`.
#[test]
fn from_valid_slice_refused() {
    each_refused(|| {
        let all = all();
        expect_same(counts_of(&all)[1], 1, "ranges of all code points");
        let Ok(ends) = all.try_get_inversion_list_vec() else {
            return;
        };
        say("call");
        let made = CodePointInversionList::from_valid_slice(&ends);
        expect_made(made.ok(), &[0, 0x11_0000]);
    });
}

/// Calls: `CodePointInversionList::try_clone`.
#[test]
fn try_clone_refused() {
    each_refused(|| {
        let basic = basic();
        say("call");
        let made = basic.try_clone();
        expect_made(made.ok(), &[0, 0x1_0000]);
        expect_listed(&basic, &[0, 0x1_0000]);
    });
}

/// Returns the number in an error at this index.
fn shown_at(points: &[PotentialCodePoint], place: usize) -> Option<u32> {
    Some(u32::from(*points.get(place)?))
}

/// Expects the numbers in an error to be `shown`.
fn expect_points(points: &[PotentialCodePoint], shown: &[u32]) {
    expect_same(points.len(), shown.len(), "numbers shown");
    for (place, want) in shown.iter().enumerate() {
        expect_same(shown_at(points, place), Some(*want), "a number shown");
    }
}

/// Says that the call is done. Expects an error for an invalid list that contains its two
/// numbers, or for a failed allocation.
fn expect_two_shown(made: Result<CodePointInversionList<'_>, SetError>) {
    match made {
        Ok(_) => panic!("an invalid list"),
        Err(SetError::Invalid(error)) => {
            tell(false);
            expect_points(&error.0, &[1, 1]);
        }
        Err(SetError::Memory) => tell(true),
    }
}

/// The error contains a copy of the invalid list.
///
/// Calls: `CodePointInversionList::try_from_inversion_list_fallible`.
#[test]
fn try_from_inversion_list_refused() {
    each_refused(|| {
        let list = list_of(&[1, 0, 0, 1, 0, 0]);
        say("call");
        let made = set_over(list);
        expect_two_shown(made);
    });
}

/// Says that the call is done. Expects the boundaries, if they were listed, to be those of the
/// Basic Multilingual Plane.
fn expect_list_of_basic(made: Option<Vec<u32>>) {
    tell(made.is_none());
    if let Some(ends) = made {
        expect_ends(ends, &[0, 0x1_0000]);
    }
}

/// Calls: `CodePointInversionList::try_get_inversion_list_vec`.
#[test]
fn get_inversion_list_vec_refused() {
    each_refused(|| {
        let basic = basic();
        say("call");
        let made = list_of_ends(&basic);
        expect_list_of_basic(made);
        expect_listed(&basic, &[0, 0x1_0000]);
    });
}

// Functions that do not allocate.

/// Applies the changes to a builder of A to Z and a to z without spare capacity. Expects each to
/// succeed, and the boundaries of the final set to be `after`.
fn expect_changes(changes: &[Change], after: &[u32]) {
    let Some(mut builder) = full_builder_of(&[0x41, 0x5B, 0x61, 0x7B]) else {
        return;
    };
    let mut answered = true;
    say("call");
    for change in changes {
        answered = change.apply(&mut builder).is_ok() && answered;
    }
    say("done");
    expect(answered, "not refused");
    expect_ends_of(set_built(builder), after);
}

/// Changes that insert no more boundaries than they remove.
static CHANGES: [Change; 3] = [
    Change::Add(Addition::CharsBelow('[', 'a')),
    Change::Remove(Removal::Numbers(0x70, u32::MAX)),
    Change::Turn(Turn::NumbersBelow(0x41, 0x43)),
];

/// Intersections with ranges.
static KEPT: [Change; 4] = [
    Change::Keep(Keeping::Chars('D', 'Z')),
    Change::Keep(Keeping::NumbersBelow(0x45, 0x50)),
    Change::Keep(Keeping::Char('F')),
    Change::Keep(Keeping::Number(0x46)),
];

/// Calls: `CodePointInversionListBuilder::try_add_range`,
/// `CodePointInversionListBuilder::try_remove_range32`,
/// `CodePointInversionListBuilder::try_complement_range32`,
/// `CodePointInversionListBuilder::retain_range`, `CodePointInversionListBuilder::retain_range32`,
/// `CodePointInversionListBuilder::retain_char`, `CodePointInversionListBuilder::retain32`.
#[test]
fn changes_quiet() {
    none_asked(|| {
        expect_changes(&CHANGES, &[0x43, 0x70]);
        expect_changes(&KEPT, &[0x46, 0x47]);
    });
}

/// Operations by which the empty set changes nothing.
static CHANGING_NOTHING: [Operation; 3] = [
    Operation::Union,
    Operation::Difference,
    Operation::SymmetricDifference,
];

/// Applies these operations with the empty set. Returns whether all succeeded.
fn is_changed_by(
    builder: &mut CodePointInversionListBuilder,
    nothing: &CodePointInversionList<'_>,
) -> bool {
    let mut answered = true;
    for operation in CHANGING_NOTHING.iter() {
        answered = operation.apply(builder, nothing).is_ok() && answered;
    }
    answered
}

/// The empty set changes nothing.
///
/// Calls: `CodePointInversionListBuilder::try_add_set`,
/// `CodePointInversionListBuilder::try_remove_set`,
/// `CodePointInversionListBuilder::try_complement_set`.
#[test]
fn sets_of_nothing_quiet() {
    none_asked(|| {
        let Some(nothing) = set_of(&[]) else {
            return;
        };
        let Some(mut builder) = full_builder_of(&LETTERS) else {
            return;
        };
        say("call");
        let answered = is_changed_by(&mut builder, &nothing);
        say("done");
        expect(answered, "not refused");
        expect_ends_of(set_built(builder), &LETTERS);
    });
}

/// Calls: `CodePointInversionListBuilder::new`, `CodePointInversionListBuilder::is_empty`.
#[test]
fn new_builder_quiet() {
    none_asked(|| {
        say("call");
        let is_empty = CodePointInversionListBuilder::new().is_empty();
        say("done");
        expect(is_empty, "empty");
    });
}

/// Returns true if the list is an inversion list.
fn is_valid(list: &ZeroVec<'_, PotentialCodePoint>) -> bool {
    is_valid_zv(list)
}

/// A valid list is used without a copy.
///
/// Calls: `codepointinvlist::is_valid_zv`,
/// `CodePointInversionList::try_from_inversion_list_fallible`.
#[test]
fn lists_quiet() {
    none_asked(|| {
        let list = list_of(&[0x41, 0, 0, 0x5B, 0, 0]);
        say("call");
        let answers = [is_valid(&list), set_over(list).is_ok()];
        say("done");
        expect_same(answers, [true, true], "a valid list, and a set over it");
    });
}

/// Returns true if the two sets are equal.
fn are_equal(a: &CodePointInversionList<'_>, b: &CodePointInversionList<'_>) -> bool {
    *a == *b
}

/// Returns true if a set made from the boundaries that a set returns is equal to it.
fn is_same_by_its_ends(set: &CodePointInversionList<'_>) -> bool {
    match set_over(set.as_inversion_list().as_zerovec()) {
        Ok(same) => are_equal(&same, set),
        Err(_) => false,
    }
}

/// Calls: `CodePointInversionList::as_inversion_list`,
/// `CodePointInversionList::try_from_inversion_list_fallible`.
#[test]
fn lent_ends_quiet() {
    none_asked(|| {
        let basic = basic();
        say("call");
        let is_same = is_same_by_its_ends(&basic);
        let ends = basic.as_inversion_list();
        say("done");
        expect_same(ends.as_bytes(), &[0, 0, 0, 0, 0, 1], "packed ends");
        expect(is_same, "an equal set");
    });
}

/// Returns how many boundaries a view has.
fn count_of(ends: impl Boundaries) -> usize {
    ends.count()
}

/// Boundaries are counted wherever they are.
///
/// Calls: `utils::is_valid_slice`, `ZeroSlice::count`.
#[test]
fn boundaries_quiet() {
    none_asked(|| {
        let list = list_of(&[0x41, 0, 0, 0x5B, 0, 0]);
        say("call");
        let valid = [
            is_valid_slice(&[0x41, 0x5B]),
            is_valid_slice(&[0x41]),
            is_valid_slice(&[0x5B, 0x41]),
        ];
        let counts = [count_of(list.as_slice()), count_of([0x41, 0x5B].as_slice())];
        say("done");
        expect_same(valid, [true, false, false], "whether lists are valid");
        expect_same(counts, [2, 2], "the numbers of boundaries");
    });
}
