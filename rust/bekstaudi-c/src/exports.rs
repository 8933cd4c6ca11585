//! The functions of c/bekstaudi.h. rust/make writes this file.
//!
//! # Safety
//! The caller keeps the rules of c/bekstaudi.h: behind each pointer there are as many items as the
//! count says, and no function writes to memory that it also reads. If a count is 0, its pointer may
//! be any pointer.
#![allow(clippy::missing_safety_doc)]

use crate::{slice, slice_mut, trie::Trie};

#[unsafe(no_mangle)]
pub unsafe extern "C" fn bks_trie_bound(count: usize, trie_type: u32, width: u32) -> u64 {
    crate::icu_collections_c::building::bks_trie_bound(count, trie_type, width)
}

#[unsafe(no_mangle)]
pub unsafe extern "C" fn bks_trie_build(
    rows: *const crate::icu_collections_c::building::Row,
    rows_count: usize,
    default_value: u32,
    error_value: u32,
    trie_type: u32,
    width: u32,
    bytes: *mut u8,
    bytes_count: usize,
) -> i64 {
    unsafe {
        crate::icu_collections_c::building::bks_trie_build(
            slice(rows, rows_count),
            default_value,
            error_value,
            trie_type,
            width,
            slice_mut(bytes, bytes_count),
        )
    }
}

#[unsafe(no_mangle)]
pub unsafe extern "C" fn bks_set_freeze(
    ends: *const u32,
    ends_count: usize,
    table: *mut u64,
    table_count: usize,
) -> i64 {
    unsafe {
        crate::icu_collections_c::frozen::bks_set_freeze(
            slice(ends, ends_count),
            slice_mut(table, table_count),
        )
    }
}

#[unsafe(no_mangle)]
pub unsafe extern "C" fn bks_frozen_contains(
    table: *const u64,
    table_count: usize,
    c: u32,
) -> bool {
    unsafe { crate::icu_collections_c::frozen::bks_frozen_contains(slice(table, table_count), c) }
}

#[unsafe(no_mangle)]
pub unsafe extern "C" fn bks_units_count(units: *const u8, units_count: usize) -> i64 {
    unsafe { crate::icu_collections_c::listing::bks_units_count(slice(units, units_count)) }
}

#[unsafe(no_mangle)]
pub unsafe extern "C" fn bks_units_list(
    units: *const u8,
    units_count: usize,
    words: *mut crate::icu_collections_c::listing::Word,
    words_count: usize,
    texts: *mut u8,
    texts_count: usize,
    texts_size: *mut usize,
) -> i64 {
    unsafe {
        crate::icu_collections_c::listing::bks_units_list(
            slice(units, units_count),
            slice_mut(words, words_count),
            slice_mut(texts, texts_count),
            &mut *texts_size,
        )
    }
}

#[unsafe(no_mangle)]
pub unsafe extern "C" fn bks_trie_range(
    trie: *const Trie,
    c: u32,
) -> crate::icu_collections_c::ranges::Range {
    unsafe { crate::icu_collections_c::ranges::bks_trie_range(&(*trie).slices(), c) }
}

#[unsafe(no_mangle)]
pub unsafe extern "C" fn bks_trie_ranges(
    trie: *const Trie,
    c: u32,
    ranges: *mut crate::icu_collections_c::ranges::Range,
    ranges_count: usize,
) -> usize {
    unsafe {
        crate::icu_collections_c::ranges::bks_trie_ranges(
            &(*trie).slices(),
            c,
            slice_mut(ranges, ranges_count),
        )
    }
}

#[unsafe(no_mangle)]
pub unsafe extern "C" fn bks_trie_is_coherent(trie: *const Trie) -> bool {
    unsafe { crate::icu_collections_c::ranges::bks_trie_is_coherent(&(*trie).slices()) }
}

#[unsafe(no_mangle)]
pub unsafe extern "C" fn bks_set_from_ranges(
    ranges: *const crate::icu_collections_c::set_building::Interval,
    ranges_count: usize,
    ends: *mut u32,
    ends_count: usize,
) -> i64 {
    unsafe {
        crate::icu_collections_c::set_building::bks_set_from_ranges(
            slice(ranges, ranges_count),
            slice_mut(ends, ends_count),
        )
    }
}

#[unsafe(no_mangle)]
pub unsafe extern "C" fn bks_set_from_points(
    points: *const u32,
    points_count: usize,
    ends: *mut u32,
    ends_count: usize,
) -> i64 {
    unsafe {
        crate::icu_collections_c::set_building::bks_set_from_points(
            slice(points, points_count),
            slice_mut(ends, ends_count),
        )
    }
}

#[unsafe(no_mangle)]
pub unsafe extern "C" fn bks_set_complement(
    ends: *const u32,
    ends_count: usize,
    complement: *mut u32,
    complement_count: usize,
) -> i64 {
    unsafe {
        crate::icu_collections_c::set_building::bks_set_complement(
            slice(ends, ends_count),
            slice_mut(complement, complement_count),
        )
    }
}

#[unsafe(no_mangle)]
pub unsafe extern "C" fn bks_set_union(
    a: *const u32,
    a_count: usize,
    b: *const u32,
    b_count: usize,
    ends: *mut u32,
    ends_count: usize,
) -> i64 {
    unsafe {
        crate::icu_collections_c::set_operations::bks_set_union(
            slice(a, a_count),
            slice(b, b_count),
            slice_mut(ends, ends_count),
        )
    }
}

#[unsafe(no_mangle)]
pub unsafe extern "C" fn bks_set_intersection(
    a: *const u32,
    a_count: usize,
    b: *const u32,
    b_count: usize,
    ends: *mut u32,
    ends_count: usize,
) -> i64 {
    unsafe {
        crate::icu_collections_c::set_operations::bks_set_intersection(
            slice(a, a_count),
            slice(b, b_count),
            slice_mut(ends, ends_count),
        )
    }
}

#[unsafe(no_mangle)]
pub unsafe extern "C" fn bks_set_difference(
    a: *const u32,
    a_count: usize,
    b: *const u32,
    b_count: usize,
    ends: *mut u32,
    ends_count: usize,
) -> i64 {
    unsafe {
        crate::icu_collections_c::set_operations::bks_set_difference(
            slice(a, a_count),
            slice(b, b_count),
            slice_mut(ends, ends_count),
        )
    }
}

#[unsafe(no_mangle)]
pub unsafe extern "C" fn bks_set_symmetric_difference(
    a: *const u32,
    a_count: usize,
    b: *const u32,
    b_count: usize,
    ends: *mut u32,
    ends_count: usize,
) -> i64 {
    unsafe {
        crate::icu_collections_c::set_operations::bks_set_symmetric_difference(
            slice(a, a_count),
            slice(b, b_count),
            slice_mut(ends, ends_count),
        )
    }
}

#[unsafe(no_mangle)]
pub unsafe extern "C" fn bks_set_contains_all(
    a: *const u32,
    a_count: usize,
    b: *const u32,
    b_count: usize,
) -> bool {
    unsafe {
        crate::icu_collections_c::set_queries::bks_set_contains_all(
            slice(a, a_count),
            slice(b, b_count),
        )
    }
}

#[unsafe(no_mangle)]
pub unsafe extern "C" fn bks_set_index_of(
    ends: *const u32,
    ends_count: usize,
    c: u32,
    index: *mut u32,
) -> bool {
    unsafe {
        crate::icu_collections_c::set_queries::bks_set_index_of(
            slice(ends, ends_count),
            c,
            &mut *index,
        )
    }
}

#[unsafe(no_mangle)]
pub unsafe extern "C" fn bks_set_nth(
    ends: *const u32,
    ends_count: usize,
    n: u32,
    c: *mut u32,
) -> bool {
    unsafe {
        crate::icu_collections_c::set_queries::bks_set_nth(slice(ends, ends_count), n, &mut *c)
    }
}

#[unsafe(no_mangle)]
pub unsafe extern "C" fn bks_set_test(ends: *const u32, ends_count: usize) -> bool {
    unsafe { crate::icu_collections_c::sets::bks_set_test(slice(ends, ends_count)) }
}

#[unsafe(no_mangle)]
pub unsafe extern "C" fn bks_set_contains(ends: *const u32, ends_count: usize, c: u32) -> bool {
    unsafe { crate::icu_collections_c::sets::bks_set_contains(slice(ends, ends_count), c) }
}

#[unsafe(no_mangle)]
pub unsafe extern "C" fn bks_set_size(ends: *const u32, ends_count: usize) -> i64 {
    unsafe { crate::icu_collections_c::sets::bks_set_size(slice(ends, ends_count)) }
}

#[unsafe(no_mangle)]
pub unsafe extern "C" fn bks_frozen_span(
    table: *const u64,
    table_count: usize,
    text: *const u8,
    text_count: usize,
    held: bool,
) -> i64 {
    unsafe {
        crate::icu_collections_c::spans::bks_frozen_span(
            slice(table, table_count),
            slice(text, text_count),
            held,
        )
    }
}

#[unsafe(no_mangle)]
pub unsafe extern "C" fn bks_frozen_span_back(
    table: *const u64,
    table_count: usize,
    text: *const u8,
    text_count: usize,
    held: bool,
) -> i64 {
    unsafe {
        crate::icu_collections_c::spans::bks_frozen_span_back(
            slice(table, table_count),
            slice(text, text_count),
            held,
        )
    }
}

#[unsafe(no_mangle)]
pub unsafe extern "C" fn bks_frozen_span_lossy(
    table: *const u64,
    table_count: usize,
    text: *const u8,
    text_count: usize,
    held: bool,
) -> usize {
    unsafe {
        crate::icu_collections_c::spans::bks_frozen_span_lossy(
            slice(table, table_count),
            slice(text, text_count),
            held,
        )
    }
}

#[unsafe(no_mangle)]
pub unsafe extern "C" fn bks_frozen_span_back_lossy(
    table: *const u64,
    table_count: usize,
    text: *const u8,
    text_count: usize,
    held: bool,
) -> usize {
    unsafe {
        crate::icu_collections_c::spans::bks_frozen_span_back_lossy(
            slice(table, table_count),
            slice(text, text_count),
            held,
        )
    }
}

#[unsafe(no_mangle)]
pub unsafe extern "C" fn bks_frozen_span_utf16(
    table: *const u64,
    table_count: usize,
    text: *const u16,
    text_count: usize,
    held: bool,
) -> usize {
    unsafe {
        crate::icu_collections_c::spans::bks_frozen_span_utf16(
            slice(table, table_count),
            slice(text, text_count),
            held,
        )
    }
}

#[unsafe(no_mangle)]
pub unsafe extern "C" fn bks_set_span(
    ends: *const u32,
    ends_count: usize,
    text: *const u8,
    text_count: usize,
    held: bool,
) -> i64 {
    unsafe {
        crate::icu_collections_c::spans::bks_set_span(
            slice(ends, ends_count),
            slice(text, text_count),
            held,
        )
    }
}

#[unsafe(no_mangle)]
pub unsafe extern "C" fn bks_set_span_back(
    ends: *const u32,
    ends_count: usize,
    text: *const u8,
    text_count: usize,
    held: bool,
) -> i64 {
    unsafe {
        crate::icu_collections_c::spans::bks_set_span_back(
            slice(ends, ends_count),
            slice(text, text_count),
            held,
        )
    }
}

#[unsafe(no_mangle)]
pub unsafe extern "C" fn bks_set_span_utf16(
    ends: *const u32,
    ends_count: usize,
    text: *const u16,
    text_count: usize,
    held: bool,
) -> usize {
    unsafe {
        crate::icu_collections_c::spans::bks_set_span_utf16(
            slice(ends, ends_count),
            slice(text, text_count),
            held,
        )
    }
}

#[unsafe(no_mangle)]
pub unsafe extern "C" fn bks_text_set_contains(
    table: *const u64,
    table_count: usize,
    units: *const u8,
    units_count: usize,
    text: *const u8,
    text_count: usize,
) -> bool {
    unsafe {
        crate::icu_collections_c::text_sets::bks_text_set_contains(
            slice(table, table_count),
            slice(units, units_count),
            slice(text, text_count),
        )
    }
}

#[unsafe(no_mangle)]
pub unsafe extern "C" fn bks_text_set_longest(
    table: *const u64,
    table_count: usize,
    units: *const u8,
    units_count: usize,
    text: *const u8,
    text_count: usize,
) -> i64 {
    unsafe {
        crate::icu_collections_c::text_sets::bks_text_set_longest(
            slice(table, table_count),
            slice(units, units_count),
            slice(text, text_count),
        )
    }
}

#[unsafe(no_mangle)]
pub unsafe extern "C" fn bks_text_set_span(
    table: *const u64,
    table_count: usize,
    units: *const u8,
    units_count: usize,
    text: *const u8,
    text_count: usize,
    held: bool,
) -> i64 {
    unsafe {
        crate::icu_collections_c::text_spans::bks_text_set_span(
            slice(table, table_count),
            slice(units, units_count),
            slice(text, text_count),
            held,
        )
    }
}

#[unsafe(no_mangle)]
pub unsafe extern "C" fn bks_trie8_get_utf8(
    trie: *const Trie,
    text: *const u8,
    text_count: usize,
    values: *mut u8,
    values_count: usize,
) -> i64 {
    unsafe {
        crate::icu_collections_c::texts::bks_trie8_get_utf8(
            &(*trie).slices(),
            slice(text, text_count),
            slice_mut(values, values_count),
        )
    }
}

#[unsafe(no_mangle)]
pub unsafe extern "C" fn bks_trie16_get_utf8(
    trie: *const Trie,
    text: *const u8,
    text_count: usize,
    values: *mut u16,
    values_count: usize,
) -> i64 {
    unsafe {
        crate::icu_collections_c::texts::bks_trie16_get_utf8(
            &(*trie).slices(),
            slice(text, text_count),
            slice_mut(values, values_count),
        )
    }
}

#[unsafe(no_mangle)]
pub unsafe extern "C" fn bks_trie32_get_utf8(
    trie: *const Trie,
    text: *const u8,
    text_count: usize,
    values: *mut u32,
    values_count: usize,
) -> i64 {
    unsafe {
        crate::icu_collections_c::texts::bks_trie32_get_utf8(
            &(*trie).slices(),
            slice(text, text_count),
            slice_mut(values, values_count),
        )
    }
}

#[unsafe(no_mangle)]
pub unsafe extern "C" fn bks_trie8_copy_utf8(
    trie: *const Trie,
    text: *const u8,
    text_count: usize,
    values: *mut u8,
    values_count: usize,
    taken: *mut usize,
) -> usize {
    unsafe {
        crate::icu_collections_c::texts::bks_trie8_copy_utf8(
            &(*trie).slices(),
            slice(text, text_count),
            slice_mut(values, values_count),
            &mut *taken,
        )
    }
}

#[unsafe(no_mangle)]
pub unsafe extern "C" fn bks_trie8_get_utf16(
    trie: *const Trie,
    text: *const u16,
    text_count: usize,
    values: *mut u8,
    values_count: usize,
) -> usize {
    unsafe {
        crate::icu_collections_c::texts::bks_trie8_get_utf16(
            &(*trie).slices(),
            slice(text, text_count),
            slice_mut(values, values_count),
        )
    }
}

#[unsafe(no_mangle)]
pub unsafe extern "C" fn bks_trie16_copy_utf8(
    trie: *const Trie,
    text: *const u8,
    text_count: usize,
    values: *mut u16,
    values_count: usize,
    taken: *mut usize,
) -> usize {
    unsafe {
        crate::icu_collections_c::texts::bks_trie16_copy_utf8(
            &(*trie).slices(),
            slice(text, text_count),
            slice_mut(values, values_count),
            &mut *taken,
        )
    }
}

#[unsafe(no_mangle)]
pub unsafe extern "C" fn bks_trie16_get_utf16(
    trie: *const Trie,
    text: *const u16,
    text_count: usize,
    values: *mut u16,
    values_count: usize,
) -> usize {
    unsafe {
        crate::icu_collections_c::texts::bks_trie16_get_utf16(
            &(*trie).slices(),
            slice(text, text_count),
            slice_mut(values, values_count),
        )
    }
}

#[unsafe(no_mangle)]
pub unsafe extern "C" fn bks_trie32_copy_utf8(
    trie: *const Trie,
    text: *const u8,
    text_count: usize,
    values: *mut u32,
    values_count: usize,
    taken: *mut usize,
) -> usize {
    unsafe {
        crate::icu_collections_c::texts::bks_trie32_copy_utf8(
            &(*trie).slices(),
            slice(text, text_count),
            slice_mut(values, values_count),
            &mut *taken,
        )
    }
}

#[unsafe(no_mangle)]
pub unsafe extern "C" fn bks_trie32_get_utf16(
    trie: *const Trie,
    text: *const u16,
    text_count: usize,
    values: *mut u32,
    values_count: usize,
) -> usize {
    unsafe {
        crate::icu_collections_c::texts::bks_trie32_get_utf16(
            &(*trie).slices(),
            slice(text, text_count),
            slice_mut(values, values_count),
        )
    }
}

#[unsafe(no_mangle)]
pub unsafe extern "C" fn bks_trie8_get(trie: *const Trie, c: u32) -> u8 {
    unsafe { crate::icu_collections_c::tries::bks_trie8_get(&(*trie).slices(), c) }
}

#[unsafe(no_mangle)]
pub unsafe extern "C" fn bks_trie16_get(trie: *const Trie, c: u32) -> u16 {
    unsafe { crate::icu_collections_c::tries::bks_trie16_get(&(*trie).slices(), c) }
}

#[unsafe(no_mangle)]
pub unsafe extern "C" fn bks_trie32_get(trie: *const Trie, c: u32) -> u32 {
    unsafe { crate::icu_collections_c::tries::bks_trie32_get(&(*trie).slices(), c) }
}

#[unsafe(no_mangle)]
pub unsafe extern "C" fn bks_trie8_get_many(
    trie: *const Trie,
    points: *const u32,
    points_count: usize,
    values: *mut u8,
    values_count: usize,
) -> usize {
    unsafe {
        crate::icu_collections_c::tries::bks_trie8_get_many(
            &(*trie).slices(),
            slice(points, points_count),
            slice_mut(values, values_count),
        )
    }
}

#[unsafe(no_mangle)]
pub unsafe extern "C" fn bks_trie16_get_many(
    trie: *const Trie,
    points: *const u32,
    points_count: usize,
    values: *mut u16,
    values_count: usize,
) -> usize {
    unsafe {
        crate::icu_collections_c::tries::bks_trie16_get_many(
            &(*trie).slices(),
            slice(points, points_count),
            slice_mut(values, values_count),
        )
    }
}

#[unsafe(no_mangle)]
pub unsafe extern "C" fn bks_trie32_get_many(
    trie: *const Trie,
    points: *const u32,
    points_count: usize,
    values: *mut u32,
    values_count: usize,
) -> usize {
    unsafe {
        crate::icu_collections_c::tries::bks_trie32_get_many(
            &(*trie).slices(),
            slice(points, points_count),
            slice_mut(values, values_count),
        )
    }
}

#[unsafe(no_mangle)]
pub unsafe extern "C" fn bks_units_build(
    keys: *const u16,
    keys_count: usize,
    lengths: *const usize,
    lengths_count: usize,
    values: *const i32,
    values_count: usize,
    bytes: *mut u8,
    bytes_count: usize,
) -> i64 {
    unsafe {
        crate::icu_collections_c::unit_building::bks_units_build(
            slice(keys, keys_count),
            slice(lengths, lengths_count),
            slice(values, values_count),
            slice_mut(bytes, bytes_count),
        )
    }
}

#[unsafe(no_mangle)]
pub unsafe extern "C" fn bks_units_next(
    units: *const u8,
    units_count: usize,
    cursor: *const crate::icu_collections_c::unit_tries::Cursor,
    next: *mut u16,
    next_count: usize,
) -> i64 {
    unsafe {
        crate::icu_collections_c::unit_nodes::bks_units_next(
            slice(units, units_count),
            &*cursor,
            slice_mut(next, next_count),
        )
    }
}

#[unsafe(no_mangle)]
pub unsafe extern "C" fn bks_units_unique(
    units: *const u8,
    units_count: usize,
    cursor: *const crate::icu_collections_c::unit_tries::Cursor,
    value: *mut i32,
) -> i64 {
    unsafe {
        crate::icu_collections_c::unit_nodes::bks_units_unique(
            slice(units, units_count),
            &*cursor,
            &mut *value,
        )
    }
}

#[unsafe(no_mangle)]
pub unsafe extern "C" fn bks_units_list_below(
    units: *const u8,
    units_count: usize,
    prefix: *const u8,
    prefix_count: usize,
    skipped: u64,
    words: *mut crate::icu_collections_c::listing::Word,
    words_count: usize,
    texts: *mut u8,
    texts_count: usize,
    texts_size: *mut usize,
) -> i64 {
    unsafe {
        crate::icu_collections_c::unit_pages::bks_units_list_below(
            slice(units, units_count),
            slice(prefix, prefix_count),
            skipped,
            slice_mut(words, words_count),
            slice_mut(texts, texts_count),
            &mut *texts_size,
        )
    }
}

#[unsafe(no_mangle)]
pub unsafe extern "C" fn bks_units_prefixes(
    units: *const u8,
    units_count: usize,
    text: *const u16,
    text_count: usize,
    found: *mut crate::icu_collections_c::unit_prefixes::Prefix,
    found_count: usize,
) -> usize {
    unsafe {
        crate::icu_collections_c::unit_prefixes::bks_units_prefixes(
            slice(units, units_count),
            slice(text, text_count),
            slice_mut(found, found_count),
        )
    }
}

#[unsafe(no_mangle)]
pub unsafe extern "C" fn bks_units_prefixes_utf8(
    units: *const u8,
    units_count: usize,
    text: *const u8,
    text_count: usize,
    found: *mut crate::icu_collections_c::unit_prefixes::Prefix,
    found_count: usize,
) -> i64 {
    unsafe {
        crate::icu_collections_c::unit_prefixes::bks_units_prefixes_utf8(
            slice(units, units_count),
            slice(text, text_count),
            slice_mut(found, found_count),
        )
    }
}

#[unsafe(no_mangle)]
pub unsafe extern "C" fn bks_units_get_utf8(
    units: *const u8,
    units_count: usize,
    key: *const u8,
    key_count: usize,
    value: *mut i32,
) -> bool {
    unsafe {
        crate::icu_collections_c::unit_texts::bks_units_get_utf8(
            slice(units, units_count),
            slice(key, key_count),
            &mut *value,
        )
    }
}

#[unsafe(no_mangle)]
pub unsafe extern "C" fn bks_units_build_utf8(
    keys: *const u8,
    keys_count: usize,
    lengths: *const usize,
    lengths_count: usize,
    values: *const i32,
    values_count: usize,
    bytes: *mut u8,
    bytes_count: usize,
) -> i64 {
    unsafe {
        crate::icu_collections_c::unit_texts::bks_units_build_utf8(
            slice(keys, keys_count),
            slice(lengths, lengths_count),
            slice(values, values_count),
            slice_mut(bytes, bytes_count),
        )
    }
}

#[unsafe(no_mangle)]
pub unsafe extern "C" fn bks_units_get(
    units: *const u8,
    units_count: usize,
    key: *const u16,
    key_count: usize,
    value: *mut i32,
) -> bool {
    unsafe {
        crate::icu_collections_c::unit_tries::bks_units_get(
            slice(units, units_count),
            slice(key, key_count),
            &mut *value,
        )
    }
}

#[unsafe(no_mangle)]
pub unsafe extern "C" fn bks_units_longest(
    units: *const u8,
    units_count: usize,
    text: *const u16,
    text_count: usize,
    value: *mut i32,
) -> i64 {
    unsafe {
        crate::icu_collections_c::unit_tries::bks_units_longest(
            slice(units, units_count),
            slice(text, text_count),
            &mut *value,
        )
    }
}

#[unsafe(no_mangle)]
pub unsafe extern "C" fn bks_units_longest_utf8(
    units: *const u8,
    units_count: usize,
    text: *const u8,
    text_count: usize,
    value: *mut i32,
) -> i64 {
    unsafe {
        crate::icu_collections_c::unit_tries::bks_units_longest_utf8(
            slice(units, units_count),
            slice(text, text_count),
            &mut *value,
        )
    }
}

#[unsafe(no_mangle)]
pub unsafe extern "C" fn bks_units_step(
    units: *const u8,
    units_count: usize,
    cursor: *mut crate::icu_collections_c::unit_tries::Cursor,
    unit: u16,
) -> u32 {
    unsafe {
        crate::icu_collections_c::unit_tries::bks_units_step(
            slice(units, units_count),
            &mut *cursor,
            unit,
        )
    }
}

#[unsafe(no_mangle)]
pub unsafe extern "C" fn bks_units_value(
    units: *const u8,
    units_count: usize,
    cursor: *const crate::icu_collections_c::unit_tries::Cursor,
    value: *mut i32,
) -> bool {
    unsafe {
        crate::icu_collections_c::unit_tries::bks_units_value(
            slice(units, units_count),
            &*cursor,
            &mut *value,
        )
    }
}

#[unsafe(no_mangle)]
pub unsafe extern "C" fn bks_trie_set(
    trie: *const Trie,
    value: u32,
    ends: *mut u32,
    ends_count: usize,
) -> i64 {
    unsafe {
        crate::icu_collections_c::value_sets::bks_trie_set(
            &(*trie).slices(),
            value,
            slice_mut(ends, ends_count),
        )
    }
}

#[unsafe(no_mangle)]
pub unsafe extern "C" fn bks_version() -> u32 {
    crate::icu_collections_c::version::bks_version()
}
