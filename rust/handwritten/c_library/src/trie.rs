//! A trie as C stores it, and the function that fills it in. rust/make compares both with c/bekstaudi.h.
#![allow(clippy::missing_safety_doc)]

use crate::icu_collections_c::{opening, tries};
use crate::slice;

/// A trie as C stores it: `bks_trie`.
#[repr(C)]
pub struct Trie {
    index: *const u8,
    index_size: usize,
    values: *const u8,
    values_size: usize,
    size: usize,
    fast_limit: u32,
    high_start: u32,
    null_value: u32,
    data_null_offset: u32,
    width: u32,
    index3_null_offset: u16,
    shifted12_high_start: u16,
}

impl Trie {
    /// No trie.
    const NONE: tries::Trie<'static> = tries::Trie {
        index: &[],
        values: &[],
        size: 0,
        fast_limit: 0,
        high_start: 0,
        null_value: 0,
        data_null_offset: 0,
        width: 0,
        index3_null_offset: 0,
        shifted12_high_start: 0,
    };

    /// Returns the trie with its slices. An all-zero `bks_trie` has empty ones.
    #[inline(always)]
    pub unsafe fn slices<'a>(&self) -> tries::Trie<'a> {
        unsafe {
            tries::Trie {
                index: slice(self.index, self.index_size),
                values: slice(self.values, self.values_size),
                size: self.size,
                fast_limit: self.fast_limit,
                high_start: self.high_start,
                null_value: self.null_value,
                data_null_offset: self.data_null_offset,
                width: self.width,
                index3_null_offset: self.index3_null_offset,
                shifted12_high_start: self.shifted12_high_start,
            }
        }
    }

    /// Returns the trie as C stores it.
    fn of(trie: &tries::Trie<'_>) -> Trie {
        Trie {
            index: trie.index.as_ptr(),
            index_size: trie.index.len(),
            values: trie.values.as_ptr(),
            values_size: trie.values.len(),
            size: trie.size,
            fast_limit: trie.fast_limit,
            high_start: trie.high_start,
            null_value: trie.null_value,
            data_null_offset: trie.data_null_offset,
            width: trie.width,
            index3_null_offset: trie.index3_null_offset,
            shifted12_high_start: trie.shifted12_high_start,
        }
    }
}

#[unsafe(no_mangle)]
pub unsafe extern "C" fn bks_trie_open(
    bytes: *const u8,
    bytes_count: usize,
    trie: *mut Trie,
) -> u32 {
    let mut found = Trie::NONE;
    let status = unsafe { opening::bks_trie_open(slice(bytes, bytes_count), &mut found) };
    // SAFETY: there is room for a `Trie`. What was there is not read: it need not be initialized.
    unsafe { trie.write(Trie::of(&found)) };
    status
}
