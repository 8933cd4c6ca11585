//! Prints the ranges of a table that `ucptrie --as rust` wrote, read from a constant. Also looks up what
//! it wrote with `--as rust-static`, and words.

use bekstaudi::char16trie::Char16Trie;
use bekstaudi::codepointtrie::{CodePointTrie, TrieValue};
use bekstaudi::zerovec::ule::AsULE;
use bekstaudi::{trie_of, trie_values, unit_trie};

include!("categories.rs");
include!("categories_small.rs");
include!("upper.rs");
include!("scripts.rs");
include!("many.rs");
include!("joined.rs");
include!("keywords.rs");

trie_values! {
    /// General categories by the numbers of data/general_category.txt, and the error value.
    enum Category: u8 {
        Cn = 0,
        Lu = 1,
        Ll = 2,
        Lt = 3,
        Lm = 4,
        Lo = 5,
        Mn = 6,
        Me = 7,
        Mc = 8,
        Nd = 9,
        Nl = 10,
        No = 11,
        Zs = 12,
        Zl = 13,
        Zp = 14,
        Cc = 15,
        Cf = 16,
        Co = 17,
        Cs = 18,
        Pd = 19,
        Ps = 20,
        Pe = 21,
        Pc = 22,
        Po = 23,
        Sm = 24,
        Sc = 25,
        Sk = 26,
        So = 27,
        Pi = 28,
        Pf = 29,
        Error = 255,
    }
}

static CATEGORIES: CodePointTrie<'static, Category> = trie_of!(categories as Category);
static CATEGORIES_SMALL: CodePointTrie<'static, u16> = trie_of!(categories_small);
static UPPER: CodePointTrie<'static, u32> = trie_of!(crate::upper);
static KEYWORDS: Char16Trie<'static> = unit_trie!(keywords::UNITS);

/// Prints the ranges, and compares each value with what the module's own look-up returns.
fn print<T: TrieValue>(trie: &CodePointTrie<'_, T>, get: impl Fn(u32) -> u32) {
    for range in trie.iter_ranges() {
        let (start, end) = range.range.into_inner();
        if start < end {
            print!("{start:04X}..");
        }
        println!("{end:04X};{}", range.value.to_u32());
    }
    assert!((0..=0x11_0000).all(|c| trie.get32_u32(c) == get(c)));
    assert_eq!(trie.get32_u32(0x11_0000), 255);
}

fn main() {
    match std::env::args().nth(1).as_deref() {
        Some("categories") => print(&CATEGORIES, |c| categories::get(c).into()),
        Some("categories_small") => print(&CATEGORIES_SMALL, |c| categories_small::get(c).into()),
        _ => print(&UPPER, upper::get),
    }
    assert_eq!(CATEGORIES.get('A'), Category::Lu);
    assert_eq!((SCRIPTS.get('B'), SCRIPTS.get('β')), (Scripts::Latin, Scripts::Greek));
    assert_eq!(KEYWORDS.longest_match_str("integer"), Some((3, 3)));
    // The properties of a joined table.
    let properties_of = |c| (JOINED.get(c).script(), JOINED.get(c).vowel());
    assert_eq!(properties_of('A'), (Script::Latin, true));
    assert_eq!(properties_of('B'), (Script::Latin, false));
    assert_eq!(properties_of('α'), (Script::Greek, true));
    assert_eq!(properties_of('1'), (Script::Unlisted, false));
    // An enum of more than 256 values.
    for number in 0..0x1_0000 {
        let value = Many::from_unaligned(&u16::to_le_bytes(number as u16));
        assert_eq!(value.map(Many::to_u32), Many::try_from_u32(number).ok().map(Many::to_u32));
        assert_eq!(value.map(Many::to_u32), (number <= 300).then_some(number));
        let expected = if (0x4E00..0x4F2C).contains(&number) { number - 0x4E00 + 1 } else { 0 };
        assert_eq!(MANY.get32_u32(number), expected);
    }
}
