// The ranges of tries, and the sets of the code points that have a value.
#include "icu_trie.hpp"
#include <algorithm>
#include <unicode/uniset.h>

using icu::UnicodeSet;

enum { TURNS = 5 };

// Mixes all ranges into `sum`.
static uint64_t icu_ranges(const UCPTrie *trie, uint64_t sum) {
    uint32_t value;
    for (UChar32 start = 0, end; (end = ucptrie_getRange(trie, start, UCPMAP_RANGE_NORMAL, 0,
                                                         nullptr, nullptr, &value)) >= 0;
         start = end + 1)
        sum = mixed(sum, end ^ value);
    return sum;
}

static uint64_t icu_set(const UCPTrie *trie, uint32_t wanted_value) {
    UnicodeSet set;
    uint32_t value;
    for (UChar32 start = 0, end; (end = ucptrie_getRange(trie, start, UCPMAP_RANGE_NORMAL, 0,
                                                         nullptr, nullptr, &value)) >= 0;
         start = end + 1)
        if (value == wanted_value) set.add(start, end);
    uint64_t sum = 0;
    for (int32_t i = 0; i < set.getRangeCount(); i++)
        sum = mixed(mixed(sum, set.getRangeStart(i)), set.getRangeEnd(i));
    return sum;
}

template <typename Turn> static uint64_t over_turns(const Turn &turn) {
    uint64_t sum = 0;
    for (int i = 0; i < TURNS; i++) sum = turn(sum);
    return sum;
}

// The number of ranges.
static double count(const UCPTrie *trie) {
    double ranges = 0;
    for (UChar32 start = 0; start <= 0x10FFFF; ranges++)
        start =
            1 + ucptrie_getRange(trie, start, UCPMAP_RANGE_NORMAL, 0, nullptr, nullptr, nullptr);
    return ranges;
}

static void all_ranges(const std::string &kernel, const Table &table, bool is_fast,
                       UCPTrieValueWidth width, size_t bytes, RangesCall *ours, RangesCall *rust) {
    const IcuTrie trie = icu_trie(table, is_fast, width);
    const TrieParts parts = parts_of(trie, bytes, is_fast);
    row(
        kernel, name_of(table, is_fast), TURNS * count(trie.get()),
        [&] { return ours(&parts, TURNS); },
        rust ? Call([&] { return rust(&parts, TURNS); }) : Call(),
        [&] { return over_turns([&](uint64_t sum) { return icu_ranges(trie.get(), sum); }); });
}

static void sets_of_values(const Table &table, bool is_fast) {
    const IcuTrie trie = icu_trie(table, is_fast, UCPTRIE_VALUE_BITS_8);
    const TrieParts parts = parts_of(trie, 1, is_fast);
    for (uint32_t value : {1u, 3u, std::min(8u, table.greatest)})
        row(
            "setfor_u8", name_of(table, is_fast) + "-v" + std::to_string(value), TURNS,
            [&] { return ours_setfor_8(&parts, value, TURNS); },
            [&] { return rust_setfor_8(&parts, value, TURNS); },
            [&] {
                return over_turns([&](uint64_t sum) { return sum + icu_set(trie.get(), value); });
            });
}

void ranges() {
    for (const Table &table : tables()) {
        for (bool is_fast : {true, false}) {
            if (table.greatest <= 0xFF && wanted("ranges_u8"))
                all_ranges("ranges_u8", table, is_fast, UCPTRIE_VALUE_BITS_8, 1, ours_ranges_8,
                           rust_ranges_8);
            if (table.greatest <= 0xFFFF && wanted("ranges_u16"))
                all_ranges("ranges_u16", table, is_fast, UCPTRIE_VALUE_BITS_16, 2, ours_ranges_16,
                           rust_ranges_16);
            if (wanted("ranges_u32"))
                all_ranges("ranges_u32", table, is_fast, UCPTRIE_VALUE_BITS_32, 4, ours_ranges_32,
                           rust_ranges_32);
            if (table.greatest <= 0xFF && wanted("range_u8"))
                all_ranges("range_u8", table, is_fast, UCPTRIE_VALUE_BITS_8, 1, ours_range_8,
                           nullptr);
            if (table.greatest <= 0xFF && wanted("setfor_u8")) sets_of_values(table, is_fast);
        }
    }
}
