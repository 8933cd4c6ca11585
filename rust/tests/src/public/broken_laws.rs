//! Types that break the laws of their traits get wrong results or panics. Nothing is read out of
//! bounds: `proved-reads` asserts this without optimization, and all other reads are checked.

use bekstaudi::codepointinvlist::{CodePointInversionListBuilder, FrozenCodePointSet};
use bekstaudi::codepointtrie::binary::{
    binary_len, from_binary, from_binary_swapped, to_binary, write_binary,
};
use bekstaudi::codepointtrie::{
    CodePointTrie, CodePointTrieBuilder, CodePointTrieHeader, ConstValue, NotAValue, TrieType,
    TrieValue, Typed, TypedCodePointTrie, Write, text, try_build_from_writes,
};
use bekstaudi::zerovec::ule::AsULE;
use bekstaudi::zerovec::{ConstCells, ZeroSlice, ZeroVec};
use std::backtrace::Backtrace;
use std::cell::Cell;
use std::cmp::Ordering;
use std::collections::hash_map::DefaultHasher;
use std::hash::{Hash, Hasher};
use std::panic::{AssertUnwindSafe, catch_unwind};

// Values that break each law of `AsULE`, `TrieValue`, `Ord` and `Eq`: every so often, one of their
// methods returns a wrong result.

thread_local! {
    static ASKED: Cell<u32> = const { Cell::new(0) };
    static TURN: Cell<u32> = const { Cell::new(1) };
}

/// From here on, every `turn`-th result is wrong.
pub fn lie_each(turn: u32) {
    TURN.set(turn);
}

/// Whether this result has to be wrong.
fn lies() -> bool {
    ASKED.set(ASKED.get().wrapping_add(1));
    ASKED.get() % TURN.get() == 0
}

/// A number of one byte that says it takes `WIDTH` bytes.
#[derive(Clone, Copy, Debug)]
pub struct Liar<const WIDTH: usize = 1>(pub u8);

impl<const WIDTH: usize> PartialEq for Liar<WIDTH> {
    fn eq(&self, other: &Self) -> bool {
        (self.0 == other.0) != lies()
    }
}

impl<const WIDTH: usize> Eq for Liar<WIDTH> {}

impl<const WIDTH: usize> PartialOrd for Liar<WIDTH> {
    fn partial_cmp(&self, other: &Self) -> Option<Ordering> {
        Some(self.cmp(other))
    }
}

impl<const WIDTH: usize> Ord for Liar<WIDTH> {
    fn cmp(&self, other: &Self) -> Ordering {
        if lies() {
            Ordering::Less
        } else {
            self.0.cmp(&other.0)
        }
    }
}

impl<const WIDTH: usize> Hash for Liar<WIDTH> {
    fn hash<H: Hasher>(&self, state: &mut H) {
        (self.0 ^ u8::from(lies())).hash(state);
    }
}

impl<const WIDTH: usize> AsULE for Liar<WIDTH> {
    const WIDTH: usize = WIDTH;

    fn to_unaligned(self) -> [u8; 4] {
        [self.0 ^ u8::from(lies()), 1, 2, 3]
    }

    fn from_unaligned(bytes: &[u8]) -> Option<Self> {
        (!lies()).then_some(Liar(bytes[0]))
    }
}

impl<const WIDTH: usize> TrieValue for Liar<WIDTH> {
    type TryFromU32Error = NotAValue;

    fn to_u32(self) -> u32 {
        if lies() { u32::MAX } else { u32::from(self.0) }
    }

    fn try_from_u32(number: u32) -> Result<Self, NotAValue> {
        if lies() {
            Err(NotAValue)
        } else {
            Ok(Liar(number as u8))
        }
    }
}

/// The result of the call, or `None` if it panics, which is allowed.
pub fn tried<A>(call: impl FnOnce() -> A) -> Option<A> {
    catch_unwind(AssertUnwindSafe(call)).ok()
}

/// Silences panics. One in the file of the reads means that an index is out of bounds: it ends the
/// tests.
pub fn watch() {
    std::panic::set_hook(Box::new(|panic| {
        if panic
            .location()
            .is_some_and(|it| it.file().ends_with("support/cells.rs"))
        {
            eprintln!(
                "a place is read that is not there: {}",
                Backtrace::force_capture()
            );
            std::process::abort();
        }
    }));
}

/// Calls every function of a trie that reads it.
pub fn ask<const WIDTH: usize>(trie: &CodePointTrie<'_, Liar<WIDTH>>) {
    for c in (0..0x11_0100).step_by(0x3FD) {
        tried(|| trie.get32(c));
        tried(|| (trie.get32_u32(c), trie.get32_supplementary(c)));
        tried(|| trie.get32_ule(c).map(|it| it.len()));
        tried(|| char::from_u32(c).map(|c| trie.get(c)));
        tried(|| match trie.as_typed_ref() {
            Typed::Fast(typed) => typed.get16(c as u16),
            Typed::Small(typed) => typed.get16(c as u16),
        });
    }
    tried(|| trie.is_coherent());
    tried(|| (0..9).map(|it| trie.get_range(it * 0x1_9999)).count());
    tried(|| trie.iter_ranges().take(300).count());
    tried(|| {
        trie.iter_ranges_mapped(|it| Liar::<1>(it.0 % 2))
            .take(300)
            .count()
    });
    tried(|| (trie.error_value(), trie.null_value()));
    ask_along_texts(trie);
    for value in 0..4 {
        tried(|| trie.iter_ranges_for_value(Liar(value)).take(300).count());
        tried(|| {
            let set = trie.get_set_for_value(Liar(value));
            let other = trie.get_set_for_value(Liar(value + 1));
            let mut builder = CodePointInversionListBuilder::new();
            builder.add_set(&set);
            builder.complement_set(&other);
            let built = builder.build();
            let _ = (
                built.contains_set(&set),
                built.size(),
                built.position32(0x1_F600),
            );
            FrozenCodePointSet::freeze(&built).span("a\u{1F600}b", true)
        });
    }
}

/// Looks up the values along texts.
fn ask_along_texts<const WIDTH: usize>(trie: &CodePointTrie<'_, Liar<WIDTH>>) {
    let line = "\0az\u{7F}\u{80}ß\u{FFFF}\u{1F600}";
    tried(|| text::values_of(trie, line).count());
    tried(|| text::value_indices_of(trie, line).count());
    tried(|| text::values_of_utf8(trie, b"az\x7F\xF1\x80B\xFF").count());
    tried(|| text::values_of_utf16(trie, &[0x61, 0x7F, 0xD83D, 0xDE00, 0xDC00]).count());
    tried(|| text::find_value(trie, line, |it| it == Liar(3)));
    tried(|| text::span_of_values(trie, line, |it| it != Liar(3)));
}

// Types that break the laws of their traits get wrong results or panics. Nothing is read out of
// bounds: `proved-reads` asserts this without optimization, and all other reads are checked.

const TYPES: [TrieType; 2] = [TrieType::Fast, TrieType::Small];

/// Makes everything that can be made of a trie, and calls the functions of each result.
fn make_of(trie: &CodePointTrie<'_, Liar>) {
    ask(trie);
    tried(|| {
        ask(&trie
            .try_alloc_map_value(|it| Ok::<_, ()>(it))
            .expect("not mapped"))
    });
    tried(|| {
        trie.clone()
            .try_into_converted::<u8>()
            .map(|it| it.get32(0x1_F600))
    });
    tried(|| trie.clone().try_into_converted::<Liar>().map(|it| ask(&it)));
    tried(|| *trie == trie.clone());
    tried(|| {
        let mut builder = CodePointTrieBuilder::from_trie(trie);
        for c in (0..0x11_0100).step_by(0x3FFD) {
            tried(|| builder.get(c));
            tried(|| builder.get_range(c));
        }
        builder.set_value(0x41, Liar(9));
        ask(&builder.build());
    });
    tried(|| {
        let (header, index, values) = trie.parts();
        let (index, values): (Vec<_>, Vec<_>) = (index.iter().collect(), values.iter().collect());
        ask(&CodePointTrie::alloc_from_slices(header, &index, &values).expect("no trie"));
    });
}

/// A trie of plain numbers, which break no law.
fn truthful(trie_type: TrieType) -> CodePointTrie<'static, u8> {
    let mut builder = CodePointTrieBuilder::new(0u8, 255, trie_type);
    for i in 0..90u32 {
        builder.set_range_value(i * 0x333..=i * 0x333 + 0x40, i as u8 % 5);
    }
    builder.build()
}

fn tries(trie_type: TrieType) {
    let whole = truthful(trie_type);
    tried(|| {
        let mapped = whole.try_alloc_map_value(|it| Ok::<_, ()>(Liar::<1>(it)));
        make_of(&mapped.expect("not mapped"));
    });
    tried(|| {
        make_of(
            &whole
                .clone()
                .try_into_converted::<Liar>()
                .expect("not converted"),
        )
    });
    let writes: Vec<_> = (0..90u8)
        .map(|i| {
            let start = u32::from(i) * 0x333;
            Write::Range(start..=start + 0x40, Liar(i % 5))
        })
        .collect();
    tried(|| {
        let built = try_build_from_writes(Liar(0), Liar(255), trie_type, &writes);
        make_of(&built.expect("not built"));
    });
}

#[test]
fn liars() {
    watch();
    for trie_type in [TYPES; 9].concat() {
        for turn in [2, 97, 100_003] {
            lie_each(turn);
            tries(trie_type);
        }
    }
}

/// Reads ICU's binary form as a trie of `Liar` and writes it again, perhaps with other contents.
fn binary_forms(trie_type: TrieType) {
    let mut bytes = to_binary(&truthful(trie_type)).expect("not written");
    tried(|| {
        let (trie, _) = from_binary::<Liar>(&bytes).expect("not read");
        make_of(&trie);
        tried(|| to_binary(&trie).map(|it| it.len()));
        let mut written = vec![0; binary_len(&trie).expect("no length")];
        write_binary(&trie, &mut written).expect("not written");
        from_binary::<u8>(&written).map(|(read, _)| read.get32(0x333))
    });
    // The other byte order: first a number of 32 bits, then numbers of 16 bits. The values are
    // bytes.
    let len = 16 + 2 * usize::from(u16::from_le_bytes([bytes[6], bytes[7]]));
    bytes[..4].reverse();
    bytes[4..len].chunks_mut(2).for_each(|it| it.reverse());
    tried(|| ask(&from_binary_swapped::<Liar>(&bytes).expect("not read").0));
}

#[test]
fn binary_forms_of_liars() {
    watch();
    for trie_type in [TYPES; 9].concat() {
        for turn in [3, 5_003, 100_003] {
            lie_each(turn);
            binary_forms(trie_type);
        }
    }
}

fn vectors<const WIDTH: usize>() {
    tried(|| {
        let values: ZeroVec<Liar<WIDTH>> = (0..200).map(Liar).collect();
        tried(|| values.binary_search(&Liar(7)));
        tried(|| values == values.clone());
        tried(|| {
            (
                values.iter().count(),
                values.first(),
                values.last(),
                values.get(199),
            )
        });
        tried(|| values.hash(&mut DefaultHasher::new()));
        tried(|| values.as_slice().iter().len());
    });
    tried(|| ZeroVec::alloc_from_slice(&[Liar::<WIDTH>(1); 99]).map(|it| it.last()));
    for len in 0..40 {
        tried(|| {
            let bytes = vec![7; len];
            let values = ZeroVec::<Liar<WIDTH>>::parse_bytes(&bytes).expect("no vector");
            (
                values.binary_search(&Liar(7)),
                values.last(),
                values.iter().last(),
            )
        });
    }
}

/// Types say that they have this width. A real type has a width from one to four: that of its
/// bytes.
fn width<const WIDTH: usize>() {
    for turn in [97, u32::MAX] {
        lie_each(turn);
        vectors::<WIDTH>();
        tried(|| {
            let mapped =
                truthful(TrieType::Fast).try_alloc_map_value(|it| Ok::<_, ()>(Liar::<WIDTH>(it)));
            ask(&mapped.expect("not mapped"));
        });
        let bytes = to_binary(&truthful(TrieType::Small)).expect("not written");
        tried(|| ask(&from_binary::<Liar<WIDTH>>(&bytes).expect("not read").0));
    }
}

#[test]
fn other_widths() {
    watch();
    width::<0>();
    width::<1>();
    width::<4>();
    width::<5>();
    width::<{ usize::MAX }>();
}

/// If the values stop being values halfway, no trie with shorter data is made: it panics.
#[test]
#[should_panic(expected = "entered unreachable code")]
fn shorter_data() {
    thread_local! {
        static ASKED: Cell<u32> = const { Cell::new(0) };
    }
    #[derive(Clone, Copy, Debug, PartialEq, Eq)]
    struct Ending(u8);
    impl AsULE for Ending {
        const WIDTH: usize = 1;

        fn to_unaligned(self) -> [u8; 4] {
            [self.0, 0, 0, 0]
        }

        fn from_unaligned(bytes: &[u8]) -> Option<Self> {
            ASKED.set(ASKED.get() + 1);
            (ASKED.get() < 100 || ASKED.get() % 5 > 0).then_some(Ending(bytes[0]))
        }
    }
    impl TrieValue for Ending {
        type TryFromU32Error = NotAValue;

        fn to_u32(self) -> u32 {
            u32::from(self.0)
        }

        fn try_from_u32(number: u32) -> Result<Self, NotAValue> {
            Ok(Ending(number as u8))
        }
    }
    let trie = CodePointTrieBuilder::new(Ending(0), Ending(1), TrieType::Small).build();
    ASKED.set(1);
    let _ = trie.try_alloc_map_value(|it| Ok::<_, ()>(it.0));
}

// Types that break the laws of `ConstValue` get panics or wrong results, and nothing is read out of
// bounds.

const HEADER: CodePointTrieHeader = CodePointTrieHeader {
    high_start: 0x1000,
    shifted12_high_start: 1,
    index3_null_offset: 0x7FFF,
    data_null_offset: 0xF_FFFF,
    null_value: 0,
    trie_type: TrieType::Small,
};

// A constant takes any cell and number for a value of a type that breaks its laws.
impl<const W: usize> ConstCells for Liar<W> {
    const CELLS: &'static [(u32, u32)] = &[(0, u32::MAX)];
}

impl<const W: usize> ConstValue for Liar<W> {}

/// Calls the functions of tries of such values.
fn lie<const W: usize>() {
    let cells = (64 * W.min(8)).min(512);
    for (turn, trie_type) in [1, 2, 97]
        .into_iter()
        .zip([TrieType::Small, TrieType::Fast].repeat(2))
    {
        lie_each(turn);
        tried(|| {
            let header = CodePointTrieHeader {
                trie_type,
                ..HEADER
            };
            let index = ZeroSlice::from_static(&[0; 2048]);
            let data = ZeroSlice::<Liar<W>>::from_static(&[0; 512][..cells]);
            ask(&CodePointTrie::from_static(header, index, data));
        });
    }
}

#[test]
fn lies_read_nothing_out_of_bounds() {
    watch();
    lie::<0>();
    lie::<1>();
    lie::<3>();
    lie::<4>();
    lie::<5>();
    lie::<8>();
    lie::<{ usize::MAX }>();
}

/// Values that break the laws, read from JSON and TOML.
#[cfg(all(feature = "json", feature = "toml"))]
mod in_formats {
    use super::{Liar, ask, lie_each, tried, watch};
    use bekstaudi::codepointtrie::trie_toml::CodePointTrieToml;
    use bekstaudi::codepointtrie::{CodePointTrie, json, planes};

    fn json_values() {
        let whole = json::to_json(&planes::get_planes_trie()).expect("no memory");
        tried(|| {
            let trie = json::from_json::<Liar>(&whole).expect("not read");
            ask(&trie);
            json::to_json(&trie).map(|it| json::from_json::<u8>(&it).is_ok())
        });
    }

    fn toml_tables() {
        let cells = "0, ".repeat(64);
        let text = format!(
            "index = [{cells}]\ndata_8 = [{cells}7, 9]\nhighStart = 4096\nshifted12HighStart = 1\n\
             type = 1\nvalueWidth = 2\nindex3NullOffset = 32767\ndataNullOffset = 3\nnullValue = 5\n"
        );
        let table = toml::from_str(&text).expect("no table");
        let read = CodePointTrieToml::from_table(&table).expect("not read");
        tried(|| ask(&CodePointTrie::<Liar>::try_from(&read).expect("no trie")));
    }

    #[test]
    fn liars() {
        watch();
        for turn in [7, 997, 100_003].repeat(9) {
            lie_each(turn);
            json_values();
            toml_tables();
        }
    }
}
