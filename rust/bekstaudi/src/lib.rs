//! Collections for Unicode data, generated from proved sources, with the names and functions of the
//! crate `icu_collections`.
//!
//! | To store | Use |
//! |---|---|
//! | a value for each code point, as a property of characters | [`codepointtrie`] |
//! | a set of code points | [`codepointinvlist`] |
//! | a set of code points and of longer texts | [`codepointinvliststringlist`] |
//! | a number for each word of a list | [`char16trie`] |
//! | a list of numbers or characters, packed and read in place | [`zerovec`] |
//!
//! Methods that allocate have two forms. `add_char` panics if an allocation fails. `try_add_char`
//! is the proved method that it calls: it returns a `Result`, and on an error leaves what it was
//! about to change unchanged.
//!
//! # Values
//!
//! ```
//! use bekstaudi::codepointtrie::{CodePointTrieBuilder, TrieType};
//!
//! let mut builder = CodePointTrieBuilder::new(0u8, 255, TrieType::Fast);
//! builder.set_range_value(0x41..=0x5A, 1);
//! builder.set_value(0x1F600, 2);
//! let trie = builder.build();
//! assert_eq!(trie.get('A'), 1);
//! assert_eq!(trie.get32(0x1F600), 2);
//! assert_eq!(trie.get('a'), 0);
//! assert_eq!(trie.get_set_for_value(1).iter_chars().count(), 26);
//! ```
//!
//! Values may also be of a type of your own. [`trie_values!`] declares an enum of them, such as one
//! of general categories. Other types implement [`TrieValue`](codepointtrie::TrieValue).
//!
//! # Sets
//!
//! ```
//! use bekstaudi::codepointinvlist::CodePointInversionListBuilder;
//!
//! let mut builder = CodePointInversionListBuilder::new();
//! builder.add_range('A'..='Z');
//! builder.complement_range('M'..='m');
//! let set = builder.build();
//! assert!(set.contains('A') && set.contains('m') && !set.contains('M'));
//! assert_eq!(set.iter_ranges().next(), Some(0x41..=0x4C));
//! ```
//!
//! # Words
//!
//! ```
//! use bekstaudi::char16trie::{Char16TrieBuilder, TrieResult};
//!
//! let mut builder = Char16TrieBuilder::new();
//! builder.add(&[0x61, 0x62], 2)?;
//! builder.add(&[0x61], 1)?;
//! let trie = builder.try_build()?;
//! let mut words = trie.iter();
//! assert_eq!(words.next('a'), TrieResult::Intermediate(1));
//! assert_eq!(words.next('b'), TrieResult::FinalValue(2));
//! assert_eq!(trie.iter2().collect::<Vec<_>>(), [("a".into(), 1), ("ab".into(), 2)]);
//! # Ok::<(), Box<dyn std::error::Error>>(())
//! ```
//!
//! # Static data
//!
//! Tries, sets and unit tries can be `static`. The compiler tests them as
//! [`try_new`](codepointtrie::CodePointTrie::try_new) does at run time, so a bad table does not compile:
//! [`CodePointTrie::from_static`](codepointtrie::CodePointTrie::from_static),
//! [`CodePointInversionList::from_static`](codepointinvlist::CodePointInversionList::from_static),
//! [`unit_trie!`]. [`ZeroSlice::from_static`](zerovec::ZeroSlice::from_static) over `include_bytes!`
//! borrows a file for them, [`zeroslice!`] packs a small array, and [`trie_values!`] declares an enum
//! of values.
//!
//! The program `ucptrie` makes the parts of a trie from rows such as `0041..005A;1`, and [`trie_of!`]
//! makes the trie of them. `ucptrie build --as rust-static` also writes the `static`, and an enum if
//! values have names.
//!
//! # Texts, tables, words
//!
//! [`codepointtrie::text`] returns the values along a text. The program `ucptrie` writes a module with a
//! `static` trie and the enum of its values, and word lists, whose units are in the source or in a
//! file:
//!
//! ```ignore
//! use bekstaudi::{char16trie::Char16Trie, codepointtrie::text, unit_trie, zerovec::ZeroSlice};
//!
//! mod script; // ucptrie build Scripts.txt --as rust-static --name script -o src/script.rs
//! include!("keywords.rs"); // ucptrie words keywords.txt --as rust --name keywords -o src/keywords.rs
//! // ucptrie words words.txt --as icu -o src/words.icu
//! static WORDS: Char16Trie = Char16Trie::from_static(ZeroSlice::from_static(include_bytes!("words.icu")));
//! static KEYWORDS: Char16Trie = unit_trie!(keywords::UNITS); // The compiler tests these units.
//!
//! fn main() {
//!     for (offset, c, script) in text::value_indices_of(&script::SCRIPT, "aβ") {
//!         println!("{offset} {c} {}", script.name());
//!     }
//!     println!("{:?} {:?}", KEYWORDS.longest_match_str("integer"), WORDS.longest_match_str("letters"));
//! }
//! ```
//!
//! # Features
//!
//! All but `alloc` are off by default.
//!
//! - `alloc`: what is built, or owns its data. Without it, static and borrowed data can be looked up
//! - `serde`: sets, tries and unit tries to and from any format of serde, in the forms of
//!   `icu_collections`: numbers and texts in formats that people read, such as JSON, and packed
//!   bytes, which are borrowed, in others. A field of such a type needs `#[serde(borrow)]`, and its
//!   struct a lifetime. Functions for `DeserializeOwned`, such as `serde_json::from_reader`, cannot
//!   read it. `into_owned` of a value that was read owns its data, so they can read a type of your own
//!   whose `deserialize` returns such a value. The strings of a set are never borrowed, unlike those
//!   of `icu_collections`
//! - `json`: sets, tries and unit tries to and from the values of `serde_json`. The forms are those
//!   of `serde`, except that a trie has the number of each value, also if its values are signed or
//!   characters
//! - `toml`: tries from the tables of `toml`; it needs `std`
//! - `proved-reads`: reads whose index is proved to be in bounds are not checked again
#![no_std]
// The Rust crate denies these too. Indices are proved to be in bounds, and allowed.
#![cfg_attr(
    not(test),
    deny(clippy::expect_used, clippy::panic, clippy::unwrap_used)
)]
#![warn(missing_docs)]
// docs.rs shows which feature an item needs.
#![cfg_attr(docsrs, feature(doc_cfg))]
// Docs name what allocates.
#![cfg_attr(not(feature = "alloc"), allow(rustdoc::broken_intra_doc_links))]
#![cfg_attr(not(feature = "proved-reads"), forbid(unsafe_code))]

#[cfg(feature = "alloc")]
extern crate alloc;

#[cfg(all(feature = "proved-reads", not(target_pointer_width = "64")))]
compile_error!("`proved-reads` needs a target with pointers of 64 bits: the proofs assume them");

#[cfg(all(doctest, feature = "alloc"))]
#[doc = include_str!("../README.md")]
struct Readme;

#[cfg(feature = "alloc")]
mod collected;
mod constant;
mod constant_units;
mod constant_values;
mod plain;
#[cfg(feature = "serde")]
mod serde_forms;
#[cfg(feature = "alloc")]
mod set_operators;
#[cfg(feature = "alloc")]
mod string_set_builder;
#[cfg(feature = "alloc")]
mod strings;
mod support;
mod traits;

pub mod char16trie;
pub mod codepointinvlist;
#[cfg(feature = "alloc")]
pub mod codepointinvliststringlist;
pub mod codepointtrie;
pub mod zerovec;

pub use plain::iterator_utils;

macro_rules! generated {
    ($($name:ident)*) => {
        modules! { all(): $($name)* }
    };
}
macro_rules! generated_with_alloc {
    ($($name:ident)*) => {
        modules! { feature = "alloc": $($name)* }
    };
}
// What is allowed is what the proofs are about: loops over indices, also in searches, bounds that
// are compared one by one, remainders, a `while` over an iterator that is used afterwards, and
// nested cases. A module has and imports what its proved source does, also what only the C library uses
// or clauses name.
macro_rules! modules {
    ($on:meta: $($name:ident)*) => {
        $(#[cfg($on)]
        #[allow(
            dead_code,
            unused_imports,
            clippy::manual_map,
            clippy::manual_memcpy,
            clippy::non_canonical_clone_impl,
            clippy::needless_lifetimes,
            clippy::needless_range_loop,
            clippy::manual_find,
            clippy::manual_range_contains,
            clippy::manual_is_multiple_of,
            clippy::while_let_on_iterator,
            clippy::collapsible_if
        )]
        mod $name;)*
    };
}

// The crates of crates.txt, and those of which nothing works without the feature `alloc`.
generated! {
    icu_zerovec icu_utf icu_invlist icu_invlist_binary icu_char16trie icu_trie_core icu_trie
    icu_trie_formats icu_trie_binary icu_trie_text
}
generated_with_alloc! {
    icu_text_sets icu_frozen_sets icu_char16trie_builder icu_trie_builder
}
