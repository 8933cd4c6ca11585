//! Results that nobody uses: the compiler warns about each. A statement here without a warning has
//! an unfulfilled `expect`, which is a warning of its own.

use bekstaudi::char16trie::{Char16Trie, Char16TrieBuilder};
use bekstaudi::codepointinvlist::{
    CodePointInversionList, CodePointInversionListBuilder, FrozenCodePointSet, RangePoint,
};
use bekstaudi::codepointinvliststringlist::CodePointInversionListAndStringListBuilder;
use bekstaudi::codepointtrie::planes::get_planes_trie;
use bekstaudi::codepointtrie::{CodePointTrieBuilder, TrieType, text};
use bekstaudi::zerovec::{PotentialCodePoint, ZeroSlice, ZeroVec};
use bekstaudi::zeroslice;

macro_rules! warns {
    ($($unused:expr;)*) => {
        $({
            #[expect(unused_must_use)]
            {
                $unused;
            }
        })*
    };
}

#[test]
fn iterators_do_nothing_unless_consumed() {
    let set = CodePointInversionList::bmp();
    let frozen = FrozenCodePointSet::freeze(&set);
    let (trie, units) = (get_planes_trie(), Char16Trie::default());
    warns! {
        set.iter_chars();
        set.iter_ranges();
        set.iter_ranges_complemented();
        set.iter_ranges().rev();
        frozen.spans("a");
        trie.iter_ranges();
        trie.iter_ranges_for_value(1);
        trie.iter_ranges_mapped(|it| it);
        text::values_of(&trie, "a");
        text::value_indices_of(&trie, "a");
        text::values_of_utf8(&trie, b"a");
        text::values_of_utf16(&trie, &[0x61]);
        units.iter2();
        units.try_iter2();
        units.matches(&[0x61]);
        units.data.iter();
    }
}

#[test]
fn constructors_only_return_values() {
    let set = CodePointInversionList::bmp();
    let (trie, units) = (get_planes_trie(), Char16Trie::default());
    warns! {
        ZeroVec::<u16>::new();
        ZeroSlice::<u16>::from_static(&[]);
        CodePointInversionList::from_static(zeroslice!(PotentialCodePoint as u32; [0x41, 0x5B]));
        Char16Trie::from_static(zeroslice!(u16; [0x8003]));
        CodePointInversionListBuilder::new();
        CodePointTrieBuilder::new(0u8, 0, TrieType::Small);
        CodePointTrieBuilder::from_trie(&trie);
        Char16TrieBuilder::new();
        FrozenCodePointSet::freeze(&set);
        units.cursor();
        units.iter();
        units.entries();
        'a'.number();
        &set | &set;
        !&set;
        trie.get_set_where(|it| it == 1);
        trie.get_range_mapped(0, |it| it == 1);
        CodePointInversionListAndStringListBuilder::new();
    }
}
