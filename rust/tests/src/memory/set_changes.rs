//! Changes of builders of sets of code points.

use crate::icu_invlist::codepointinvlist::{CodePointInversionList, CodePointInversionListBuilder};
use crate::icu_zerovec::MemoryError;
use crate::memory::support::{expect_listed, set_of, tell};
use crate::refusals::{each_refused, say};

// The builder's methods as values, for tables of test cases.

/// Returns a builder of this set, or `None` if an allocation fails.
fn builder_of_set(set: &CodePointInversionList<'_>) -> Option<CodePointInversionListBuilder> {
    let mut builder = CodePointInversionListBuilder::new();
    match Operation::Union.apply(&mut builder, set) {
        Ok(()) => Some(builder),
        Err(_) => None,
    }
}

/// Returns a builder of the set with these boundaries, or `None` if an allocation fails.
pub fn builder_of(ends: &[u32]) -> Option<CodePointInversionListBuilder> {
    match set_of(ends) {
        Some(set) => builder_of_set(&set),
        None => None,
    }
}

/// Returns a copy of the builder, which has no spare capacity, or `None` if an allocation fails.
pub fn copy_of_builder(
    builder: &CodePointInversionListBuilder,
) -> Option<CodePointInversionListBuilder> {
    builder.try_clone().ok()
}

/// Returns the set that the builder makes, or `None` if an allocation fails.
pub fn set_built(
    builder: CodePointInversionListBuilder,
) -> Option<CodePointInversionList<'static>> {
    builder.try_build().ok()
}

/// A change of a builder's set by another set.
pub enum Operation {
    Union,
    Difference,
    Intersection,
    SymmetricDifference,
}

impl Operation {
    /// Changes the builder's set by this one.
    pub fn apply(
        &self,
        builder: &mut CodePointInversionListBuilder,
        set: &CodePointInversionList<'_>,
    ) -> Result<(), MemoryError> {
        match self {
            Operation::Union => builder.try_add_set(set),
            Operation::Difference => builder.try_remove_set(set),
            Operation::Intersection => builder.try_retain_set(set),
            Operation::SymmetricDifference => builder.try_complement_set(set),
        }
    }
}

/// An addition to a builder's set. The second number of a range is inclusive, except in variants
/// named `Below`, where it is exclusive.
pub enum Addition {
    Char(char),
    Number(u32),
    Chars(char, char),
    CharsBelow(char, char),
    Numbers(u32, u32),
}

impl Addition {
    /// Adds to the builder's set.
    fn apply(&self, builder: &mut CodePointInversionListBuilder) -> Result<(), MemoryError> {
        match self {
            Addition::Char(c) => builder.try_add_char(*c),
            Addition::Number(c) => builder.try_add32(*c),
            Addition::Chars(first, last) => builder.try_add_range(*first..=*last),
            Addition::CharsBelow(start, end) => builder.try_add_range(*start..*end),
            Addition::Numbers(first, last) => builder.try_add_range32(*first..=*last),
        }
    }
}

/// A removal from a builder's set. The second number of a range is inclusive, except in variants
/// named `Below`, where it is exclusive.
pub enum Removal {
    Char(char),
    Number(u32),
    CharsBelow(char, char),
    Numbers(u32, u32),
    NumbersBelow(u32, u32),
}

impl Removal {
    /// Removes from the builder's set.
    fn apply(&self, builder: &mut CodePointInversionListBuilder) -> Result<(), MemoryError> {
        match self {
            Removal::Char(c) => builder.try_remove_char(*c),
            Removal::Number(c) => builder.try_remove32(*c),
            Removal::CharsBelow(start, end) => builder.try_remove_range(*start..*end),
            Removal::Numbers(first, last) => builder.try_remove_range32(*first..=*last),
            Removal::NumbersBelow(start, end) => builder.try_remove_range32(*start..*end),
        }
    }
}

/// What a builder's set retains. The second number of a range is inclusive, except in variants
/// named `Below`, where it is exclusive.
pub enum Keeping {
    Char(char),
    Number(u32),
    Chars(char, char),
    NumbersBelow(u32, u32),
}

impl Keeping {
    /// Removes everything else from the builder's set.
    fn apply(&self, builder: &mut CodePointInversionListBuilder) {
        match self {
            Keeping::Char(c) => builder.retain_char(*c),
            Keeping::Number(c) => builder.retain32(*c),
            Keeping::Chars(first, last) => builder.retain_range(*first..=*last),
            Keeping::NumbersBelow(start, end) => builder.retain_range32(*start..*end),
        }
    }
}

/// What is complemented in a builder's set. The second number of a range is inclusive, except in
/// variants named `Below`, where it is exclusive.
pub enum Turn {
    All,
    Char(char),
    Number(u32),
    Chars(char, char),
    NumbersBelow(u32, u32),
}

impl Turn {
    /// Complements this in the builder's set.
    fn apply(&self, builder: &mut CodePointInversionListBuilder) -> Result<(), MemoryError> {
        match self {
            Turn::All => builder.try_complement(),
            Turn::Char(c) => builder.try_complement_char(*c),
            Turn::Number(c) => builder.try_complement32(*c),
            Turn::Chars(first, last) => builder.try_complement_range(*first..=*last),
            Turn::NumbersBelow(start, end) => builder.try_complement_range32(*start..*end),
        }
    }
}

/// A change of a builder's set.
pub enum Change {
    Add(Addition),
    Remove(Removal),
    Keep(Keeping),
    Turn(Turn),
}

impl Change {
    /// Changes the builder's set.
    pub fn apply(&self, builder: &mut CodePointInversionListBuilder) -> Result<(), MemoryError> {
        match self {
            Change::Add(addition) => addition.apply(builder),
            Change::Remove(removal) => removal.apply(builder),
            Change::Keep(keeping) => {
                keeping.apply(builder);
                Ok(())
            }
            Change::Turn(turn) => turn.apply(builder),
        }
    }
}

// Failed allocations. Each function that may allocate returns an error as soon as an allocation
// fails, and leaves unchanged what it would have changed.

/// The boundaries of the set that the builders start with: A to Z.
pub const LETTERS: [u32; 2] = [0x41, 0x5B];

/// Returns a copy of the builder, which is dropped.
fn copied(builder: CodePointInversionListBuilder) -> Option<CodePointInversionListBuilder> {
    copy_of_builder(&builder)
}

/// Returns a builder of the set with these boundaries that has no spare capacity.
pub fn full_builder_of(ends: &[u32]) -> Option<CodePointInversionListBuilder> {
    match builder_of(ends) {
        Some(builder) => copied(builder),
        None => None,
    }
}

/// Expects the set, if it was made, to have these boundaries. Checks nothing if listing them fails
/// to allocate.
pub fn expect_ends_of(made: Option<CodePointInversionList<'_>>, ends: &[u32]) {
    if let Some(set) = made {
        expect_listed(&set, ends);
    }
}

/// Says that the call is done. Expects the builder's set to be `after` if the call succeeded, and
/// still `own` if an allocation failed.
pub fn expect_answer(
    is_answered: bool,
    builder: CodePointInversionListBuilder,
    own: &[u32],
    after: &[u32],
) {
    tell(!is_answered);
    let want = if is_answered { after } else { own };
    expect_ends_of(set_built(builder), want);
}

// Changes of a builder.

/// Changes a builder of A to Z without spare capacity. Expects its set to be `after`, or still A to
/// Z if an allocation failed.
fn expect_change(change: &Change, after: &[u32]) {
    let Some(mut builder) = full_builder_of(&LETTERS) else {
        return;
    };
    say("call");
    let is_answered = change.apply(&mut builder).is_ok();
    expect_answer(is_answered, builder, &LETTERS, after);
}

/// Changes of the set of A to Z, one for each method, with the boundaries of the set after them.
static CHANGES: [(Change, &[u32]); 13] = [
    (Change::Add(Addition::Char('a')), &[0x41, 0x5B, 0x61, 0x62]),
    (
        Change::Add(Addition::Number(0x61)),
        &[0x41, 0x5B, 0x61, 0x62],
    ),
    (
        Change::Add(Addition::Chars('a', 'b')),
        &[0x41, 0x5B, 0x61, 0x63],
    ),
    (
        Change::Add(Addition::Numbers(0x61, 0x62)),
        &[0x41, 0x5B, 0x61, 0x63],
    ),
    (
        Change::Remove(Removal::Char('C')),
        &[0x41, 0x43, 0x44, 0x5B],
    ),
    (
        Change::Remove(Removal::Number(0x43)),
        &[0x41, 0x43, 0x44, 0x5B],
    ),
    (
        Change::Remove(Removal::CharsBelow('C', 'E')),
        &[0x41, 0x43, 0x45, 0x5B],
    ),
    (
        Change::Remove(Removal::NumbersBelow(0x43, 0x45)),
        &[0x41, 0x43, 0x45, 0x5B],
    ),
    (Change::Turn(Turn::All), &[0, 0x41, 0x5B, 0x11_0000]),
    (Change::Turn(Turn::Char('a')), &[0x41, 0x5B, 0x61, 0x62]),
    (Change::Turn(Turn::Number(0x43)), &[0x41, 0x43, 0x44, 0x5B]),
    (
        Change::Turn(Turn::Chars('a', 'b')),
        &[0x41, 0x5B, 0x61, 0x63],
    ),
    (
        Change::Turn(Turn::NumbersBelow(0x43, 0x45)),
        &[0x41, 0x43, 0x45, 0x5B],
    ),
];

/// Calls: `CodePointInversionListBuilder::try_add_char`,
/// `CodePointInversionListBuilder::try_add32`, `CodePointInversionListBuilder::try_add_range`,
/// `CodePointInversionListBuilder::try_add_range32`,
/// `CodePointInversionListBuilder::try_remove_char`, `CodePointInversionListBuilder::try_remove32`,
/// `CodePointInversionListBuilder::try_remove_range`,
/// `CodePointInversionListBuilder::try_remove_range32`,
/// `CodePointInversionListBuilder::try_complement`,
/// `CodePointInversionListBuilder::try_complement_char`,
/// `CodePointInversionListBuilder::try_complement32`,
/// `CodePointInversionListBuilder::try_complement_range`,
/// `CodePointInversionListBuilder::try_complement_range32`.
#[test]
fn changes_refused() {
    each_refused(|| {
        for (change, after) in CHANGES.iter() {
            expect_change(change, after);
        }
    });
}

/// Changes a builder of the set `own` without spare capacity by the set `lent`. Expects its set to
/// be `after`, or still `own` if an allocation failed, and `lent` to be unchanged.
fn expect_change_by(own: &[u32], operation: &Operation, lent: &[u32], after: &[u32]) {
    let Some(set) = set_of(lent) else {
        return;
    };
    let Some(mut builder) = full_builder_of(own) else {
        return;
    };
    say("call");
    let is_answered = operation.apply(&mut builder, &set).is_ok();
    expect_answer(is_answered, builder, own, after);
    expect_listed(&set, lent);
}

/// The boundaries of a set, the operation, the boundaries of the other set, and those of the
/// result.
type ChangeBy = (&'static [u32], Operation, &'static [u32], &'static [u32]);

/// Operations on two sets: first the examples of UnicodeSet and of the Rust crate, then others with
/// A to Z.
static CHANGES_BY: [ChangeBy; 10] = [
    (
        &[0xA, 0x14, 0x28, 0x32],
        Operation::Union,
        &[0x5, 0xA, 0x16, 0x21, 0x2C, 0x33],
        &[0x5, 0x14, 0x16, 0x21, 0x28, 0x33],
    ),
    (
        &[0xA, 0x14, 0x28, 0x32, 0x46, 0x50],
        Operation::Difference,
        &[0xA, 0x14, 0x2D, 0x4B],
        &[0x28, 0x2D, 0x4B, 0x50],
    ),
    (
        &[0xA, 0x14, 0x28, 0x32, 0x46, 0x50],
        Operation::Intersection,
        &[0xE, 0x14, 0x19, 0x37, 0x4D, 0x51],
        &[0xE, 0x14, 0x28, 0x32, 0x4D, 0x50],
    ),
    (
        &[0xA, 0x14],
        Operation::SymmetricDifference,
        &[0x10, 0x20],
        &[0xA, 0x10, 0x14, 0x20],
    ),
    (
        &LETTERS,
        Operation::Union,
        &[0x61, 0x63, 0x70, 0x71, 0x80, 0x81, 0x90, 0x91],
        &[0x41, 0x5B, 0x61, 0x63, 0x70, 0x71, 0x80, 0x81, 0x90, 0x91],
    ),
    // The sets have common members.
    (
        &LETTERS,
        Operation::Union,
        &[0x3F, 0x43, 0x50, 0x52, 0x5A, 0x60, 0x70, 0x71],
        &[0x3F, 0x60, 0x70, 0x71],
    ),
    // The set is one range below the letters.
    (
        &LETTERS,
        Operation::Union,
        &[0x30, 0x32],
        &[0x30, 0x32, 0x41, 0x5B],
    ),
    (
        &LETTERS,
        Operation::Difference,
        &[0x43, 0x45, 0x47, 0x48, 0x4A, 0x4B, 0x50, 0x52],
        &[0x41, 0x43, 0x45, 0x47, 0x48, 0x4A, 0x4B, 0x50, 0x52, 0x5B],
    ),
    (
        &LETTERS,
        Operation::Intersection,
        &[0x43, 0x45, 0x47, 0x48, 0x4A, 0x4B, 0x50, 0x52],
        &[0x43, 0x45, 0x47, 0x48, 0x4A, 0x4B, 0x50, 0x52],
    ),
    (
        &LETTERS,
        Operation::SymmetricDifference,
        &[0x43, 0x45, 0x47, 0x48, 0x4A, 0x4B, 0x60, 0x62],
        &[0x41, 0x43, 0x45, 0x47, 0x48, 0x4A, 0x4B, 0x5B, 0x60, 0x62],
    ),
];

/// Calls: `CodePointInversionListBuilder::try_add_set`,
/// `CodePointInversionListBuilder::try_remove_set`,
/// `CodePointInversionListBuilder::try_retain_set`,
/// `CodePointInversionListBuilder::try_complement_set`.
#[test]
fn changes_by_sets_refused() {
    each_refused(|| {
        for (own, operation, lent, after) in CHANGES_BY.iter() {
            expect_change_by(own, operation, lent, after);
        }
    });
}
