"""What rust/tests/run has beside the rules of rust/make: which of our crates beside the library run as
Rust, what they need that the code doesn't, and forms that rust/make has to refuse."""

# Our crates that tests call beside the library.
TESTED = "ucptab_table examples".split()
# What these have in another form, beside the rules of rust/translation_rules.txt.
TEST_RULES = [
    *((f".collect{of}({it})", ".listed()") for of in ("", "::<Vec<_>>") for it in ("alloc", "rt.alloc()")),
    ("std::convert", "core::convert"),
    ("trie.try_into_converted", "trie.try_into_converted_explained"),
]
# Without JSON, the functions that need it go from what was made, and what is imported for them.
FORM_RULES = [
    (
        r"(?ms)^(?://[^\n]*\n|#\[[^\n]*\n)*(?:pub )?fn (?:(?!^\}).)*?"
        r"(?:JsonError|\bjson::(?:to|from)_json\b)(?:(?!^\}).)*^\}\n",
        "",
    ),
    (r"\b\w+JsonError, |, \w+JsonError\b", ""),
]
# Functions that have other names in the edition than the table `tried` in rust/translation_rules.txt says.
OTHER_NAMES = {
    "CodePointInversionList::try_from": "CodePointInversionList::try_from_range",
    "CodePointInversionList::try_from_inversion_list":
        "CodePointInversionList::try_from_inversion_list_fallible",
    "CodePointInversionList::try_from_u32_inversion_list_slice":
        "CodePointInversionList::try_from_u32_inversion_list_slice_fallible",
    "CodePointTrie::try_alloc_map_value": "CodePointTrie::try_alloc_map_value_fallible",
    "CodePointTrie::try_into_converted": "CodePointTrie::try_into_converted_explained",
    "CodePointInversionListAndStringList::strings":
        "CodePointInversionListAndStringList::string_slice",
}
# Methods that the edition lacks: those that only proofs use, and one for Rattle's inclusive ranges.
ONLY_PROVED = r"::shown$|^RangePoint::is_used_up$|^TrieView::value_in_(fast_)?block$|^ZeroSlice::copy_to$"
# Functions whose allocations do not fail in turn: an internal one, and those that write JSON.
NOT_SWEPT = r"::from_valid_slice$|::to_json$"
# Forms that rust/make does not know.
UNKNOWN = [
    "fn f(x: u8) -> u8\n    decreases { x }\n{\n    x\n}\n",
    "fn f(x: u8)\n    modifies { x }\n{\n}\n",
    "fn f() {\n    loop invariant { x } {}\n}\n",
    "fn f(x: u8) {\n    while x < 3 invariant { x } {}\n}\n",
    "ghost fn f() {}\n",
    "fn f()\n    requires x < 3\n{\n}\n",
    "lemma f { x }\n",
    "#[ghostly]\nfn f() {}\n",
    "fn f() {\n    lemma!(x);\n}\n",
    "fn f() {\n    let x = \u03bb;\n}\n",
    "pub fn unsafe_one(x: u8)\n    requires { x < 3 }\n{\n}\n",
    "pub const fn unsafe_two(x: u8)\n    requires { x < 3 }\n{\n}\n",
    "use std::process::Abort;\n",
    "fn f() {\n    g(1, Global);\n}\n",
    "use std::marker::{Copy, Brand, PhantomData};\n",
    "use std::{marker::{Brand, PhantomData}};\n",
    'pub extern "C" fn f(x: &[u8]) -> u8 {\n    x[0]\n}\n',
    "#[unsafe(no_mangle)]\npub fn f(x: u8) -> u8 {\n    x\n}\n",
]
# Forms that it knows, and what they become.
HEAD = "use crate::support::prelude::*;\n"
KNOWN = {
    "use std::marker::{Brand, PhantomData};\nstruct S(PhantomData<u8>);\n":
        f"{HEAD}use core::marker::PhantomData;\nstruct S(PhantomData<u8>);\n",
    "use std::cmp::{self, Ordering};\nuse std::fmt::Debug;\nstruct S(Ordering);\n":
        f"{HEAD}use core::cmp::{{self, Ordering}};\nuse core::fmt::Debug;\nstruct S(Ordering);\n",
}
# Changes of c/bekstaudi.h after which it no longer declares what icu_collections_c has.
OTHER_HEADERS = [
    ("bool bks_set_test(", "int bks_set_test("),
    ("bool bks_set_test(const uint32_t *ends, size_t count);", ""),
    ("uint32_t width, void *bytes", "uint16_t width, void *bytes"),
    ("uint64_t bks_trie_bound(size_t count, ", "uint64_t bks_trie_bound("),
    ("bks_cursor *cursor, uint16_t unit", "const bks_cursor *cursor, uint16_t unit"),
    ("uint16_t index3_null_offset;      /*", "uint16_t shifted12_high_start;   /*"),
    ("    size_t start;\n    size_t size;", "    uint32_t start;\n    size_t size;"),
    ("BKS_INVALID_SET = -11 ", "BKS_INVALID_SET = -2 "),
    ("    BKS_LONG_KEY = -9, ", "    BKS_WIDE_KEY = -9, "),
    ("    BKS_NO_KEY = -4, ", "    "),
    ("BKS_INVALID_SET = -11 ", "BKS_INVALID_SET = -11, BKS_NO_WORD = -12 "),
    ("} bks_word;", "    int32_t other;\n} bks_word;"),
]
# What each source of the crates in TESTED sees.
TEST_NAMES = "#[allow(unused_imports)]\nuse crate::runtime::*;\n"
