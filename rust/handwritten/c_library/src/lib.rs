//! The library that c/bekstaudi.h declares, built by cargo alone.
//!
//! `icu_collections_c` has the functions of the proved crate of that name, without their proofs.
//! They use the modules of rust/bekstaudi, which are compiled in place. Unsafe code is
//! in this file and in `exports`, and only touches memory that the C caller or `malloc` provides.
#![no_std]
#![deny(unsafe_op_in_unsafe_fn)]
// The C library uses a part of the modules of rust/bekstaudi, whose lib.rs says why the others are
// allowed. `to_typed` and `to_untyped` are the Rust crate's names.
#![allow(dead_code, unused_imports)]
#![allow(
    clippy::manual_map,
    clippy::manual_memcpy,
    clippy::needless_lifetimes,
    clippy::non_canonical_clone_impl,
    clippy::needless_range_loop,
    clippy::manual_find,
    clippy::manual_range_contains,
    clippy::manual_is_multiple_of,
    clippy::while_let_on_iterator,
    clippy::collapsible_if,
    clippy::wrong_self_convention
)]

extern crate alloc;

use core::alloc::{GlobalAlloc, Layout};
use core::ffi::c_void;

mod exports;
mod trie;
#[forbid(unsafe_code)]
mod icu_collections_c;

unsafe extern "C" {
    fn malloc(size: usize) -> *mut c_void;
    fn realloc(block: *mut c_void, size: usize) -> *mut c_void;
    fn free(block: *mut c_void);
    fn abort() -> !;
}

/// The alignment that `malloc` guarantees.
const ALIGNMENT: usize = 16;

/// Allocates with the program's own `malloc`.
struct Malloc;

#[global_allocator]
static MALLOC: Malloc = Malloc;

// SAFETY: a block of `malloc` or `realloc` has at least the requested size and is aligned to
// ALIGNMENT. A request for a larger alignment, which no type here needs, fails.
unsafe impl GlobalAlloc for Malloc {
    unsafe fn alloc(&self, layout: Layout) -> *mut u8 {
        if layout.align() > ALIGNMENT {
            return core::ptr::null_mut();
        }
        // `black_box` keeps the compiler from merging `malloc` and `memset` into `calloc`, so that
        // a caller who wraps `malloc` sees each request.
        core::hint::black_box(unsafe { malloc(layout.size()).cast() })
    }

    unsafe fn dealloc(&self, block: *mut u8, _: Layout) {
        unsafe { free(block.cast()) }
    }

    unsafe fn realloc(&self, block: *mut u8, _: Layout, size: usize) -> *mut u8 {
        unsafe { realloc(block.cast(), size).cast() }
    }
}

/// Ends the program. The proofs show that no function panics.
#[panic_handler]
fn panicked(_: &core::panic::PanicInfo) -> ! {
    unsafe { abort() }
}

/// Returns the slice of `count` items at `first`. If `count` is 0, `first` may be any pointer.
///
/// # Safety
/// There are `count` readable items at `first`, and nothing writes to them during `'a`.
#[inline(always)]
unsafe fn slice<'a, T>(first: *const T, count: usize) -> &'a [T] {
    if count == 0 {
        return &[];
    }
    unsafe { core::slice::from_raw_parts(first, count) }
}

/// Returns the mutable slice of `count` items at `first`. If `count` is 0, `first` may be any
/// pointer.
///
/// # Safety
/// There are `count` writable items at `first`, and nothing else accesses them during `'a`.
#[inline(always)]
unsafe fn slice_mut<'a, T>(first: *mut T, count: usize) -> &'a mut [T] {
    if count == 0 {
        return &mut [];
    }
    unsafe { core::slice::from_raw_parts_mut(first, count) }
}

/// Marks a path as unlikely, so that the compiler favours the others.
#[cold]
#[inline(never)]
fn cold() {}

// The modules of rust/bekstaudi. `serde_forms` is not among them: there is no feature serde here.
#[forbid(unsafe_code)]
#[path = "../../bekstaudi/src/char16trie.rs"]
mod char16trie;
#[forbid(unsafe_code)]
#[path = "../../bekstaudi/src/codepointinvlist.rs"]
mod codepointinvlist;
#[forbid(unsafe_code)]
#[path = "../../bekstaudi/src/codepointinvliststringlist.rs"]
mod codepointinvliststringlist;
#[forbid(unsafe_code)]
#[path = "../../bekstaudi/src/codepointtrie.rs"]
mod codepointtrie;
#[forbid(unsafe_code)]
#[path = "../../bekstaudi/src/collected.rs"]
mod collected;
#[forbid(unsafe_code)]
#[path = "../../bekstaudi/src/constant.rs"]
mod constant;
#[forbid(unsafe_code)]
#[path = "../../bekstaudi/src/constant_units.rs"]
mod constant_units;
#[forbid(unsafe_code)]
#[path = "../../bekstaudi/src/constant_values.rs"]
mod constant_values;
#[forbid(unsafe_code)]
#[path = "../../bekstaudi/src/icu_char16trie/mod.rs"]
mod icu_char16trie;
#[forbid(unsafe_code)]
#[path = "../../bekstaudi/src/icu_char16trie_builder/mod.rs"]
mod icu_char16trie_builder;
#[forbid(unsafe_code)]
#[path = "../../bekstaudi/src/icu_frozen_sets/mod.rs"]
mod icu_frozen_sets;
#[forbid(unsafe_code)]
#[path = "../../bekstaudi/src/icu_invlist/mod.rs"]
mod icu_invlist;
#[forbid(unsafe_code)]
#[path = "../../bekstaudi/src/icu_invlist_binary/mod.rs"]
mod icu_invlist_binary;
#[forbid(unsafe_code)]
#[path = "../../bekstaudi/src/icu_text_sets/mod.rs"]
mod icu_text_sets;
#[forbid(unsafe_code)]
#[path = "../../bekstaudi/src/icu_trie/mod.rs"]
mod icu_trie;
#[forbid(unsafe_code)]
#[path = "../../bekstaudi/src/icu_trie_binary/mod.rs"]
mod icu_trie_binary;
#[forbid(unsafe_code)]
#[path = "../../bekstaudi/src/icu_trie_builder/mod.rs"]
mod icu_trie_builder;
#[forbid(unsafe_code)]
#[path = "../../bekstaudi/src/icu_trie_core/mod.rs"]
mod icu_trie_core;
#[forbid(unsafe_code)]
#[path = "../../bekstaudi/src/icu_trie_formats/mod.rs"]
mod icu_trie_formats;
#[forbid(unsafe_code)]
#[path = "../../bekstaudi/src/icu_trie_text/mod.rs"]
mod icu_trie_text;
#[forbid(unsafe_code)]
#[path = "../../bekstaudi/src/icu_utf/mod.rs"]
mod icu_utf;
#[forbid(unsafe_code)]
#[path = "../../bekstaudi/src/icu_zerovec/mod.rs"]
mod icu_zerovec;
#[forbid(unsafe_code)]
#[path = "../../bekstaudi/src/plain.rs"]
mod plain;
#[forbid(unsafe_code)]
#[path = "../../bekstaudi/src/set_operators.rs"]
mod set_operators;
#[forbid(unsafe_code)]
#[path = "../../bekstaudi/src/string_set_builder.rs"]
mod string_set_builder;
#[forbid(unsafe_code)]
#[path = "../../bekstaudi/src/strings.rs"]
mod strings;
#[cfg_attr(not(feature = "proved-reads"), forbid(unsafe_code))]
#[path = "../../bekstaudi/src/support/mod.rs"]
mod support;
#[forbid(unsafe_code)]
#[path = "../../bekstaudi/src/traits.rs"]
mod traits;
#[forbid(unsafe_code)]
#[path = "../../bekstaudi/src/zerovec.rs"]
mod zerovec;
