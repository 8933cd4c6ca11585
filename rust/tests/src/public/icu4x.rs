//! Stand-ins for traits of zerofrom, yoke, databake and zerovec, over the public functions:
//! docs/ICU4X.md says what a feature would implement.

use bekstaudi::char16trie::Char16Trie;
use bekstaudi::codepointinvlist::CodePointInversionList;
use bekstaudi::codepointinvliststringlist::CodePointInversionListAndStringList;
use bekstaudi::codepointtrie::planes::get_planes_trie;
use bekstaudi::codepointtrie::{
    CodePointTrie, CodePointTrieBuilder, CodePointTrieHeader, ConstValue, TrieType, TrieValue,
};
use bekstaudi::zerovec::ule::{AsULE as Packed, UleError};
use bekstaudi::zerovec::{PotentialCodePoint, ZeroSlice, ZeroVec};
use std::borrow::Cow;
use std::fmt::Write;

// Stand-ins for traits of zerofrom, yoke and databake, over the public functions: docs/ICU4X.md says
// which a feature would implement.

/// zerofrom's trait: a value that borrows from another one.
trait ZeroFrom<'zf, C: ?Sized> {
    fn zero_from(other: &'zf C) -> Self;
}

impl<'zf, T: Packed> ZeroFrom<'zf, ZeroVec<'_, T>> for ZeroVec<'zf, T> {
    fn zero_from(other: &'zf ZeroVec<'_, T>) -> Self {
        other.as_slice().as_zerovec()
    }
}

impl<'zf, T: TrieValue> ZeroFrom<'zf, CodePointTrie<'_, T>> for CodePointTrie<'zf, T> {
    fn zero_from(other: &'zf CodePointTrie<'_, T>) -> Self {
        let (header, index, data) = other.parts();
        CodePointTrie::try_new(header, index.as_zerovec(), data.as_zerovec()).expect("a trie")
    }
}

impl<'zf> ZeroFrom<'zf, CodePointInversionList<'_>> for CodePointInversionList<'zf> {
    fn zero_from(other: &'zf CodePointInversionList<'_>) -> Self {
        CodePointInversionList::try_from_static(other.as_inversion_list()).expect("a set")
    }
}

impl<'zf> ZeroFrom<'zf, Char16Trie<'_>> for Char16Trie<'zf> {
    fn zero_from(other: &'zf Char16Trie<'_>) -> Self {
        Char16Trie::new(ZeroFrom::zero_from(&other.data))
    }
}

// The strings are owned, so they are copied.
impl<'zf> ZeroFrom<'zf, CodePointInversionListAndStringList<'_>>
    for CodePointInversionListAndStringList<'zf>
{
    fn zero_from(other: &'zf CodePointInversionListAndStringList<'_>) -> Self {
        let code_points = ZeroFrom::zero_from(other.code_points());
        CodePointInversionListAndStringList::try_from(code_points, other.strings().to_vec())
            .expect("a set")
    }
}

/// The safe half of yoke's trait: the compiler shortens the lifetime. The other half, `make` and
/// `transform_mut`, is unsafe code in yoke's own derive too.
trait Yokeable<'a> {
    type Output: 'a;
    fn transform(&'a self) -> &'a Self::Output;
    fn transform_owned(self) -> Self::Output;
}

macro_rules! yokeable {
    ($([$($of:tt)*] $value:ty, $output:ty;)*) => {
        $(
            impl<'a, $($of)*> Yokeable<'a> for $value {
                type Output = $output;

                fn transform(&'a self) -> &'a Self::Output {
                    self
                }

                fn transform_owned(self) -> Self::Output {
                    self
                }
            }
        )*
    };
}

yokeable! {
    [T: Packed + 'static] ZeroVec<'static, T>, ZeroVec<'a, T>;
    [T: TrieValue + 'static] CodePointTrie<'static, T>, CodePointTrie<'a, T>;
    [] CodePointInversionList<'static>, CodePointInversionList<'a>;
    [] CodePointInversionListAndStringList<'static>, CodePointInversionListAndStringList<'a>;
    [] Char16Trie<'static>, Char16Trie<'a>;
    [] CodePointTrieHeader, CodePointTrieHeader;
    [] TrieType, TrieType;
}

/// The pointers of what is borrowed.
fn first<T: Packed>(slice: ZeroSlice<'_, T>) -> *const u8 {
    slice.as_bytes().as_ptr()
}

#[test]
fn values_are_borrowed_from_others() {
    let trie = get_planes_trie();
    let lent: CodePointTrie<u8> = ZeroFrom::zero_from(&trie);
    assert_eq!(
        (first(lent.parts().1), &lent),
        (first(trie.parts().1), &trie)
    );
    let set = CodePointInversionList::try_from_u32_inversion_list_slice(&[1, 5]).unwrap();
    let lent: CodePointInversionList = ZeroFrom::zero_from(&set);
    assert_eq!(
        first(lent.as_inversion_list()),
        first(set.as_inversion_list())
    );
    let words = Char16Trie::new(ZeroVec::alloc_from_slice(&[0x30, 0x61, 0x8001]).unwrap());
    let lent: Char16Trie = ZeroFrom::zero_from(&words);
    assert_eq!(first(lent.data.as_slice()), first(words.data.as_slice()));
    let texts: CodePointInversionListAndStringList = ["a", "abc"].into_iter().collect();
    let lent: CodePointInversionListAndStringList = ZeroFrom::zero_from(&texts);
    assert_eq!(
        first(lent.code_points().as_inversion_list()),
        first(texts.code_points().as_inversion_list())
    );
    assert_eq!(lent, texts);
    assert_eq!(texts.clone().transform_owned(), texts);
}

#[test]
fn lifetimes_are_shortened() {
    let trie = get_planes_trie();
    assert_eq!(trie.transform().get('\u{1F600}'), 1);
    assert_eq!(trie.clone().transform_owned().get('\u{1F600}'), 1);
    assert_eq!(CodePointInversionList::all().transform().size(), 0x11_0000);
    assert_eq!(
        Char16Trie::new(ZeroVec::new()).transform().count_entries(),
        Some(0)
    );
}

/// databake's trait, with text for tokens.
trait Bake {
    fn bake(&self) -> Cow<'static, str>;
}

/// Returns the numbers of packed values, in brackets.
fn numbers<T: Packed>(slice: ZeroSlice<'_, T>, number: impl Fn(T) -> u32) -> String {
    let mut text = String::from("[");
    slice
        .iter()
        .for_each(|it| write!(text, "{},", number(it)).unwrap());
    text + "]"
}

impl Bake for CodePointTrieHeader {
    fn bake(&self) -> Cow<'static, str> {
        format!("{self:?}")
            .replace(
                "CodePointTrieHeader",
                "bekstaudi::codepointtrie::CodePointTrieHeader",
            )
            .replace(": Small", ": bekstaudi::codepointtrie::TrieType::Small")
            .into()
    }
}

impl<T: TrieValue + ConstValue> Bake for CodePointTrie<'_, T> {
    fn bake(&self) -> Cow<'static, str> {
        let (header, index, data) = self.parts();
        let (index, data) = (numbers(index, u32::from), numbers(data, T::to_u32));
        format!(
            "bekstaudi::codepointtrie::CodePointTrie::from_static({}, bekstaudi::zeroslice!(u16; {index}), bekstaudi::zeroslice!(u8; {data}))",
            header.bake()
        )
        .into()
    }
}

impl Bake for CodePointInversionList<'_> {
    fn bake(&self) -> Cow<'static, str> {
        let ends = numbers(self.as_inversion_list(), u32::from);
        format!("bekstaudi::codepointinvlist::CodePointInversionList::from_static(bekstaudi::zeroslice!(bekstaudi::zerovec::PotentialCodePoint as u32; {ends}))").into()
    }
}

impl Bake for Char16Trie<'_> {
    fn bake(&self) -> Cow<'static, str> {
        let units = numbers(self.data.as_slice(), u32::from);
        format!(
            "bekstaudi::char16trie::Char16Trie::from_static(bekstaudi::zeroslice!(u16; {units}))"
        )
        .into()
    }
}

// No expression of a constant, since the strings are owned.
impl Bake for CodePointInversionListAndStringList<'_> {
    fn bake(&self) -> Cow<'static, str> {
        let set = self.code_points().bake();
        let strings = self.strings();
        format!("bekstaudi::codepointinvliststringlist::CodePointInversionListAndStringList::try_from({set}, bekstaudi::zerovec::VarZeroVec::from(&{strings:?}))").into()
    }
}

/// databake's trait: how many bytes the baked value borrows.
trait BakeSize {
    fn borrows_size(&self) -> usize;
}

impl<T: TrieValue> BakeSize for CodePointTrie<'_, T> {
    fn borrows_size(&self) -> usize {
        let (_, index, data) = self.parts();
        index.as_bytes().len() + data.as_bytes().len()
    }
}

impl BakeSize for CodePointInversionList<'_> {
    fn borrows_size(&self) -> usize {
        self.as_inversion_list().as_bytes().len()
    }
}

impl BakeSize for Char16Trie<'_> {
    fn borrows_size(&self) -> usize {
        self.data.as_bytes().len()
    }
}

impl BakeSize for CodePointInversionListAndStringList<'_> {
    fn borrows_size(&self) -> usize {
        self.code_points().borrows_size()
    }
}

static WORDS: Char16Trie<'static> =
    bekstaudi::char16trie::Char16Trie::from_static(bekstaudi::zeroslice!(u16; [49,97,98,32771,]));

#[test]
fn baked_words_and_strings_are_what_was_baked() {
    let text = "bekstaudi::char16trie::Char16Trie::from_static(bekstaudi::zeroslice!(u16; [49,97,98,32771,]))";
    assert_eq!((WORDS.bake().as_ref(), WORDS.borrows_size()), (text, 8));
    assert_eq!(WORDS.longest_match_str("ab"), Some((2, 3)));
    let texts =
        bekstaudi::codepointinvliststringlist::CodePointInversionListAndStringList::try_from(
            bekstaudi::codepointinvlist::CodePointInversionList::from_static(
                bekstaudi::zeroslice!(bekstaudi::zerovec::PotentialCodePoint as u32; [65,91,]),
            ),
            bekstaudi::zerovec::VarZeroVec::from(&["ab", "cd"]),
        )
        .unwrap();
    let text = "bekstaudi::codepointinvliststringlist::CodePointInversionListAndStringList::try_from(bekstaudi::codepointinvlist::CodePointInversionList::from_static(bekstaudi::zeroslice!(bekstaudi::zerovec::PotentialCodePoint as u32; [65,91,])), bekstaudi::zerovec::VarZeroVec::from(&[\"ab\", \"cd\"]))";
    assert_eq!(
        (
            texts.bake().as_ref(),
            texts.borrows_size(),
            SET.borrows_size()
        ),
        (text, 6, 6)
    );
    assert_eq!(
        get_planes_trie().borrows_size(),
        get_planes_trie().parts().1.as_bytes().len() + get_planes_trie().parts().2.len()
    );
}

// The text of the expression is what the compiler reads below.
static SET: CodePointInversionList<'static> =
    bekstaudi::codepointinvlist::CodePointInversionList::from_static(
        bekstaudi::zeroslice!(bekstaudi::zerovec::PotentialCodePoint as u32; [65,91,]),
    );

#[test]
fn a_baked_set_is_the_set() {
    let text = "bekstaudi::codepointinvlist::CodePointInversionList::from_static(bekstaudi::zeroslice!(bekstaudi::zerovec::PotentialCodePoint as u32; [65,91,]))";
    assert_eq!(SET.bake(), text);
    assert!(SET.contains('Z') && !SET.contains('['));
    let text = get_planes_trie().bake();
    let head = "bekstaudi::codepointtrie::CodePointTrie::from_static(bekstaudi::codepointtrie::CodePointTrieHeader { high_start: 1048576, shifted12_high_start: 256, index3_null_offset: 2, data_null_offset: 0, null_value: 0, trie_type: bekstaudi::codepointtrie::TrieType::Small }, bekstaudi::zeroslice!(u16; [0,";
    assert!(text.starts_with(head), "{text}");
}

// Stand-ins for zerovec's traits, over the public functions: docs/ICU4X.md says what a feature would
// implement. The packed types of single values are arrays of bytes here.

/// zerovec's trait, whose packed form is a type.
trait AsULE: Copy {
    type ULE;
    fn to_unaligned(self) -> Self::ULE;
    fn from_unaligned(unaligned: &Self::ULE) -> Self;
    /// zerovec has this in a trait of `ULE`.
    fn parse_bytes_to_slice(bytes: &[u8]) -> Result<&[Self::ULE], UleError>;
}

macro_rules! as_ule {
    ($($value:ty)*) => {
        $(impl AsULE for $value {
            type ULE = [u8; <$value as Packed>::WIDTH];

            fn to_unaligned(self) -> Self::ULE {
                *Packed::to_unaligned(self).first_chunk().expect("a cell")
            }

            fn from_unaligned(unaligned: &Self::ULE) -> Self {
                Packed::from_unaligned(unaligned).expect("a value")
            }

            fn parse_bytes_to_slice(bytes: &[u8]) -> Result<&[Self::ULE], UleError> {
                ZeroVec::<$value>::parse_bytes(bytes)?;
                Ok(bytes.as_chunks().0)
            }
        })*
    };
}

as_ule! { u8 u16 u32 i8 i16 i32 char PotentialCodePoint }

/// The Rust crate's method: a reference to a packed value of the trie.
fn get32_ule<'a, T: TrieValue + AsULE>(
    trie: &'a CodePointTrie<'_, T>,
    c: u32,
) -> Option<&'a T::ULE> {
    T::parse_bytes_to_slice(trie.get32_ule(c)?).ok()?.first()
}

#[test]
fn values_have_packed_types() {
    let mut builder = CodePointTrieBuilder::new('a', '\u{1F600}', TrieType::Fast);
    builder.set_value(0x41, '\u{10FFFF}');
    let trie = builder.build();
    for c in [0, 0x41, 0xFFFF, 0x1_0000, 0x10_FFFF] {
        let unaligned = get32_ule(&trie, c).expect("a cell");
        assert_eq!(<char as AsULE>::from_unaligned(unaligned), trie.get32(c));
        assert_eq!(*unaligned, AsULE::to_unaligned(trie.get32(c)));
    }
    assert_eq!(get32_ule(&get_planes_trie(), 0x1_F600), Some(&[1]));
    assert_eq!(AsULE::to_unaligned(-2i16), [0xFE, 0xFF]);
    let surrogate = <char as AsULE>::parse_bytes_to_slice(&[0x41, 0, 0, 0, 0xD8, 0]);
    assert_eq!(surrogate, Err(UleError::Cell(1)));
}

/// zerovec's trait of unsized types over bytes.
trait VarULE {
    fn parse_bytes(bytes: &[u8]) -> Result<&Self, UleError>;
    fn as_bytes(&self) -> &[u8];
}

/// zerovec's trait of values that are written as such a type.
trait EncodeAsVarULE<T: VarULE + ?Sized> {
    fn encode_var_ule_len(&self) -> usize;
    fn encode_var_ule_write(&self, bytes: &mut [u8]);
}

/// The packed form of a set in the Rust crate: its size, and its boundaries.
#[repr(transparent)]
struct CodePointInversionListULE([u8]);

impl CodePointInversionListULE {
    fn set(&self) -> CodePointInversionList<'_> {
        let ends = ZeroVec::parse_bytes(&self.0[4..]).expect("boundaries");
        CodePointInversionList::try_from_inversion_list(ends).expect("a set")
    }
}

impl VarULE for CodePointInversionListULE {
    fn parse_bytes(bytes: &[u8]) -> Result<&Self, UleError> {
        let (size, ends) = bytes.split_first_chunk::<4>().ok_or(UleError::Length)?;
        let set = CodePointInversionList::try_from_inversion_list(ZeroVec::parse_bytes(ends)?);
        if !set.is_ok_and(|it| it.size() as u32 == u32::from_le_bytes(*size)) {
            return Err(UleError::Cell(0));
        }
        // SAFETY: the type is transparent over its bytes.
        Ok(unsafe { &*(std::ptr::from_ref(bytes) as *const Self) })
    }

    fn as_bytes(&self) -> &[u8] {
        &self.0
    }
}

impl EncodeAsVarULE<CodePointInversionListULE> for CodePointInversionList<'_> {
    fn encode_var_ule_len(&self) -> usize {
        4 + self.as_inversion_list().as_bytes().len()
    }

    fn encode_var_ule_write(&self, bytes: &mut [u8]) {
        let (size, ends) = bytes.split_at_mut(4);
        size.copy_from_slice(&(self.size() as u32).to_le_bytes());
        ends.copy_from_slice(self.as_inversion_list().as_bytes());
    }
}

#[test]
fn sets_have_an_unsized_form() {
    for set in [
        ('a'..='z').chain('0'..='9').collect(),
        CodePointInversionList::all(),
        Default::default(),
    ] {
        let mut bytes = vec![0; set.encode_var_ule_len()];
        set.encode_var_ule_write(&mut bytes);
        let unaligned = CodePointInversionListULE::parse_bytes(&bytes).expect("a set");
        assert_eq!((unaligned.set(), unaligned.as_bytes()), (set, &*bytes));
        bytes[0] ^= 1;
        assert!(CodePointInversionListULE::parse_bytes(&bytes).is_err());
    }
    assert!(CodePointInversionListULE::parse_bytes(&[1, 0, 0]).is_err());
}

/// The packed form of a set with strings: the number of bytes of the packed set, that set, and each
/// string with its number of bytes before it. zerovec has all these numbers in one list.
#[repr(transparent)]
struct CodePointInversionListAndStringListULE([u8]);

/// Takes a part and its number of bytes off the start.
fn take_part<'a>(bytes: &mut &'a [u8]) -> Option<&'a [u8]> {
    let (count, rest) = bytes.split_first_chunk::<4>()?;
    let (part, rest) = rest.split_at_checked(u32::from_le_bytes(*count) as usize)?;
    *bytes = rest;
    Some(part)
}

/// Returns the set of its packed form, if it is one.
fn unpacked(mut bytes: &[u8]) -> Option<CodePointInversionListAndStringList<'_>> {
    let set = CodePointInversionListULE::parse_bytes(take_part(&mut bytes)?)
        .ok()?
        .set();
    let mut strings = Vec::new();
    while !bytes.is_empty() {
        strings.push(str::from_utf8(take_part(&mut bytes)?).ok()?.to_string());
    }
    CodePointInversionListAndStringList::try_from(set, strings).ok()
}

impl VarULE for CodePointInversionListAndStringListULE {
    fn parse_bytes(bytes: &[u8]) -> Result<&Self, UleError> {
        unpacked(bytes).ok_or(UleError::Cell(0))?;
        // SAFETY: the type is transparent over its bytes.
        Ok(unsafe { &*(std::ptr::from_ref(bytes) as *const Self) })
    }

    fn as_bytes(&self) -> &[u8] {
        &self.0
    }
}

impl EncodeAsVarULE<CodePointInversionListAndStringListULE>
    for CodePointInversionListAndStringList<'_>
{
    fn encode_var_ule_len(&self) -> usize {
        let strings: usize = self.strings().iter().map(|it| 4 + it.len()).sum();
        4 + self.code_points().encode_var_ule_len() + strings
    }

    fn encode_var_ule_write(&self, bytes: &mut [u8]) {
        let mut set = vec![0; self.code_points().encode_var_ule_len()];
        self.code_points().encode_var_ule_write(&mut set);
        let parts = std::iter::once(&*set).chain(self.strings().iter().map(str::as_bytes));
        let packed: Vec<u8> = parts
            .flat_map(|it| [&(it.len() as u32).to_le_bytes(), it].concat())
            .collect();
        bytes.copy_from_slice(&packed);
    }
}

#[test]
fn sets_with_strings_have_an_unsized_form() {
    let set: CodePointInversionListAndStringList = ["a", "abc", "xyz"].into_iter().collect();
    let mut bytes = vec![0; set.encode_var_ule_len()];
    set.encode_var_ule_write(&mut bytes);
    let unaligned = CodePointInversionListAndStringListULE::parse_bytes(&bytes).expect("a set");
    assert_eq!(
        (unpacked(unaligned.as_bytes()), unaligned.as_bytes()),
        (Some(set), &*bytes)
    );
    for i in 0..bytes.len() {
        // What is cut after the set or after a string is a set too.
        let is_cut = CodePointInversionListAndStringListULE::parse_bytes(&bytes[..i]).is_err();
        assert_eq!(is_cut, ![14, 21].contains(&i), "{i}");
    }
    // Strings that are not sorted.
    let last = bytes.len() - 1;
    bytes[last - 2] = 0x41;
    assert!(CodePointInversionListAndStringListULE::parse_bytes(&bytes).is_err());
}
