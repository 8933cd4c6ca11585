// This repository's C functions compared with ICU: opening a trie, look-ups inline, by a call and of many
// code points, the values of a text at once in UTF-8 and UTF-16, the ranges of a trie, the set of a value, a
// build into a buffer, and the set of scattered points; the values of a text also by the C++ classes.
#include "../../c/bekstaudi.hpp"
#include "icu_trie.hpp"
#include <algorithm>
#include <cstring>
#include <unicode/uset.h>
#include <unicode/unistr.h>
#include <unicode/utf8.h>

using std::string;
using std::vector;

enum { POINTS = 4096, TURNS = 12, CHARACTERS = 1 << 16, RANGES = 256, ROOM = 1 << 20, SCATTERED = 50000 };

// A trie that ICU built, in its binary form, and opened by the C library.
struct Opened {
    vector<uint32_t> bytes;
    bks_trie trie;
    explicit Opened(const UCPTrie *built) : bytes(ROOM / 4) {
        UErrorCode error = U_ZERO_ERROR;
        const int32_t size = ucptrie_toBinary(built, bytes.data(), ROOM, &error);
        if (U_FAILURE(error) || bks_open(&trie, bytes.data(), size) != BKS_OK)
            fail("a trie can't be opened for C");
    }
};

#define ADDER(name, get)                                                                   \
    template <class Trie>                                                                  \
    __attribute__((noinline)) static uint64_t name(const Trie *trie, const uint32_t *points) { \
        uint64_t sum = 0;                                                                  \
        for (size_t i = 0; i < POINTS; i++) sum += get(trie, points[i]);                   \
        return sum;                                                                        \
    }
#define ICU_GET(trie, c) UCPTRIE_FAST_GET(trie, UCPTRIE_8, (UChar32)(c))
ADDER(ours_points, bks_get8)
ADDER(icu_points, ICU_GET)
ADDER(ours_called, bks_trie8_get)
ADDER(icu_called, ucptrie_get)

__attribute__((noinline)) static size_t icu_many(const UCPTrie *trie, const vector<uint32_t> &points,
                                                 uint8_t *into) {
    for (uint32_t c : points) *into++ = ICU_GET(trie, c);
    return points.size();
}

template <class Turn> static uint64_t over_turns(const Turn &turn) {
    uint64_t sum = 0;
    for (int i = 0; i < TURNS; i++) sum += turn();
    return sum;
}

// Eight values at a time: one by one, the sum takes as long as what is measured.
static uint64_t sum_of(const vector<uint8_t> &values, size_t count) {
    uint64_t sum = 0, eight;
    size_t i = 0;
    for (; i + 8 <= count; i += 8) {
        std::memcpy(&eight, &values[i], 8);
        sum += eight;
    }
    for (; i < count; i++) sum += values[i];
    return sum;
}

// Opens the trie anew in each turn, and adds up the bytes that it takes.
static void opens(const string &name, const Opened &ours) {
    const void *const bytes = ours.bytes.data();
    row(
        "c_open_u8", name, TURNS,
        [&] {
            return over_turns([&] {
                bks_trie trie;
                return bks_open(&trie, bytes, ROOM) == BKS_OK ? trie.size : 0;
            });
        },
        nullptr, [&] {
            return over_turns([&] {
                UErrorCode error = U_ZERO_ERROR;
                int32_t size = 0;
                ucptrie_close(ucptrie_openFromBinary(UCPTRIE_TYPE_ANY, UCPTRIE_VALUE_BITS_8, bytes, ROOM,
                                                     &size, &error));
                return size;
            });
        });
}

static void points(const string &name, const Opened &ours, const UCPTrie *icu, uint32_t below) {
    vector<uint32_t> all(POINTS);
    for (uint32_t &c : all) c = random_number(below);
    const double each = double(POINTS) * TURNS;
    if (wanted("c_get_u8"))
        row(
            "c_get_u8", name, each,
            [&] { return over_turns([&] { return ours_points(&ours.trie, all.data()); }); }, nullptr,
            [&] { return over_turns([&] { return icu_points(icu, all.data()); }); });
    if (wanted("c_call_u8"))
        row(
            "c_call_u8", name, each,
            [&] { return over_turns([&] { return ours_called(&ours.trie, all.data()); }); }, nullptr,
            [&] { return over_turns([&] { return icu_called(icu, all.data()); }); });
    vector<uint8_t> values(POINTS);
    if (wanted("c_many_u8"))
        row(
            "c_many_u8", name, each,
            [&] {
                return over_turns([&] {
                    return sum_of(values, bks_trie8_get_many(&ours.trie, PARTS(all), PARTS(values)));
                });
            },
            nullptr,
            [&] { return over_turns([&] { return sum_of(values, icu_many(icu, all, values.data())); }); });
}

static uint64_t icu_values(const UCPTrie *trie, const string &text, vector<uint8_t> &values) {
    const uint8_t *at = reinterpret_cast<const uint8_t *>(text.data()), *end = at + text.size();
    // A local copy: a write of a byte could change the vector itself, for the compiler.
    uint8_t *const into = values.data();
    size_t count = 0;
    while (at < end) UCPTRIE_FAST_U8_NEXT(trie, UCPTRIE_8, at, end, into[count++]);
    return sum_of(values, count);
}

static void text(const string &name, const Opened &ours, const UCPTrie *icu, const Text &one) {
    vector<uint8_t> values(CHARACTERS + 4);
    row(
        "c_text_u8", name + "-" + one.name, CHARACTERS,
        [&] {
            return sum_of(values, bks_trie8_get_utf8(&ours.trie, one.bytes.data(),
                                                     one.bytes.size(), values.data(), CHARACTERS));
        },
        nullptr, [&] { return icu_values(icu, one.bytes, values); });
}

// The values of a text in UTF-16.
static void units(const string &name, const Opened &ours, const UCPTrie *icu, const Text &one) {
    const icu::UnicodeString text = icu::UnicodeString::fromUTF8(one.bytes);
    vector<uint8_t> values(CHARACTERS + 4);
    row(
        "c_utf16_u8", name + "-" + one.name, CHARACTERS,
        [&] {
            const uint16_t *const start = reinterpret_cast<const uint16_t *>(text.getBuffer());
            return sum_of(values,
                          bks_trie8_get_utf16(&ours.trie, start, text.length(), values.data(), CHARACTERS));
        },
        nullptr, [&] {
            const UCPTrie *const trie = icu;
            const char16_t *at = text.getBuffer(), *const end = at + text.length();
            uint8_t *const into = values.data();
            size_t count = 0;
            while (at < end) {
                [[maybe_unused]] UChar32 c;
                UCPTRIE_FAST_U16_NEXT(trie, UCPTRIE_8, at, end, c, into[count++]);
            }
            return sum_of(values, count);
        });
}

// The values by a buffer of so many, which is summed each time that it is full.
static void copies(const string &name, const Opened &ours, const UCPTrie *icu, const Text &one,
                   size_t room) {
    vector<uint8_t> values(room);
    row(
        "c_copy_u8", name + "-" + one.name + "-" + std::to_string(room), CHARACTERS,
        [&] {
            uint64_t sum = 0;
            for (size_t at = 0, taken; at < one.bytes.size(); at += taken)
                sum += sum_of(values, bks_trie8_copy_utf8(&ours.trie, one.bytes.data() + at,
                                                          one.bytes.size() - at, values.data(), room,
                                                          &taken));
            return sum;
        },
        nullptr,
        [&] {
            const uint8_t *at = reinterpret_cast<const uint8_t *>(one.bytes.data()),
                          *end = at + one.bytes.size();
            const UCPTrie *const trie = icu;
            uint8_t *const into = values.data();
            const size_t most = room;
            uint64_t sum = 0;
            while (at < end) {
                size_t count = 0;
                while (count < most && at < end)
                    UCPTRIE_FAST_U8_NEXT(trie, UCPTRIE_8, at, end, into[count++]);
                sum += sum_of(values, count);
            }
            return sum;
        });
}

// The same by the C++ classes, at once.
static void by_classes(const string &name, const Opened &ours, const UCPTrie *icu,
                       const Text &one) {
    const bekstaudi::trie8 trie(ours.bytes);
    vector<uint8_t> values(CHARACTERS + 4);
    row(
        "cpp_copy_u8", name + "-" + one.name, CHARACTERS,
        [&] {
            return sum_of(values, trie.copy_values(one.bytes, values.data(), values.size()).values);
        },
        nullptr, [&] { return icu_values(icu, one.bytes, values); });
}

// Each range is mixed on its own. In a chain each would wait for the one before, and that only
// shows if the ranges come from a buffer.
static uint64_t icu_ranges(const UCPTrie *trie) {
    uint64_t sum = 0;
    uint32_t value;
    for (UChar32 c = 0, end; (end = ucptrie_getRange(trie, c, UCPMAP_RANGE_NORMAL, 0, nullptr,
                                                     nullptr, &value)) >= 0;
         c = end + 1)
        sum += mixed(c, end ^ value);
    return sum;
}

static uint64_t ranges_one_by_one(const bks_trie &trie) {
    uint64_t sum = 0;
    for (bks_range r = bks_trie_range(&trie, 0); r.found; r = bks_trie_range(&trie, r.last + 1))
        sum += mixed(r.first, r.last ^ r.value);
    return sum;
}

static uint64_t ranges_by_many(const bks_trie &trie) {
    bks_range ranges[RANGES];
    uint64_t sum = 0;
    size_t n;
    for (uint32_t c = 0; (n = bks_trie_ranges(&trie, c, ranges, RANGES)) > 0;
         c = ranges[n - 1].last + 1)
        for (size_t i = 0; i < n; i++)
            sum += mixed(ranges[i].first, ranges[i].last ^ ranges[i].value);
    return sum;
}

// All ranges of a trie: one per call, or many.
static void ranges(const string &kernel, const string &name, const Opened &ours, const UCPTrie *icu,
                   uint64_t (*all)(const bks_trie &)) {
    uint32_t count = 0;
    for (bks_range r = bks_trie_range(&ours.trie, 0); r.found; count++)
        r = bks_trie_range(&ours.trie, r.last + 1);
    row(
        kernel, name, count, [&] { return all(ours.trie); }, nullptr,
        [&] { return icu_ranges(icu); });
}

// The number of boundaries of the set of a value.
static void set_of(const string &name, const Opened &ours, const UCPTrie *icu, uint32_t wanted) {
    vector<uint32_t> ends(1 << 13);
    row(
        "c_setfor_u8", name + "-v" + std::to_string(wanted), 1,
        [&] { return bks_trie_set(&ours.trie, wanted, ends.data(), ends.size()); }, nullptr,
        [&] {
            uint32_t value;
            USet *set = uset_openEmpty();
            for (UChar32 c = 0, end; (end = ucptrie_getRange(icu, c, UCPMAP_RANGE_NORMAL, 0,
                                                             nullptr, nullptr, &value)) >= 0;
                 c = end + 1)
                if (value == wanted) uset_addRange(set, c, end);
            const uint64_t count = 2 * uset_getRangeCount(set);
            uset_close(set);
            return count;
        });
}

static void build(const Table &table, bool is_fast) {
    vector<bks_row> rows;
    for (const Row &it : table.rows) rows.push_back({it.start, it.end, it.value});
    vector<uint32_t> bytes(ROOM / 4);
    row(
        "c_build_u8", name_of(table, is_fast), 1,
        [&] {
            const int64_t size = bks_trie_build(rows.data(), rows.size(), 0, ERROR_VALUE,
                                                is_fast ? BKS_FAST : BKS_SMALL, 1, bytes.data(), ROOM);
            return size < 0;
        },
        nullptr,
        [&] {
            UErrorCode error = U_ZERO_ERROR;
            const IcuTrie trie = icu_trie(table, is_fast, UCPTRIE_VALUE_BITS_8);
            return ucptrie_toBinary(trie.get(), bytes.data(), ROOM, &error) <= 0;
        });
}

// The set of many code points in no order.
static void set_from_points() {
    vector<uint32_t> points(SCATTERED), ends(2 * SCATTERED);
    for (uint32_t &c : points) c = random_number(0x110000);
    row(
        "c_set_from_points", std::to_string(SCATTERED), SCATTERED,
        [&] { return bks_set_from_points(points.data(), SCATTERED, ends.data(), ends.size()); },
        nullptr,
        [&] {
            USet *set = uset_openEmpty();
            for (uint32_t c : points) uset_add(set, UChar32(c));
            const uint64_t count = 2 * uset_getRangeCount(set);
            uset_close(set);
            return count;
        });
}

void c_calls() {
    for (const Table &table : tables()) {
        if (table.greatest > 0xFF) continue;
        const IcuTrie icu = icu_trie(table, true, UCPTRIE_VALUE_BITS_8);
        const Opened ours(icu.get());
        const string name = name_of(table, true);
        if (wanted("c_open_u8")) opens(name, ours);
        if (wanted("c_get_u8") || wanted("c_call_u8") || wanted("c_many_u8")) {
            points(name + "-latin1", ours, icu.get(), 0x100);
            points(name + "-bmp", ours, icu.get(), 0x10000);
            points(name + "-all", ours, icu.get(), 0x110000);
        }
        if (wanted("c_text_u8"))
            for (const Text &one : texts(CHARACTERS)) text(name, ours, icu.get(), one);
        if (wanted("c_utf16_u8"))
            for (const Text &one : texts(CHARACTERS)) units(name, ours, icu.get(), one);
        if (wanted("c_copy_u8"))
            for (size_t room : {256, 4096})
                for (const Text &one : texts(CHARACTERS)) copies(name, ours, icu.get(), one, room);
        if (wanted("cpp_copy_u8"))
            for (const Text &one : texts(CHARACTERS)) by_classes(name, ours, icu.get(), one);
        if (wanted("c_range_u8")) ranges("c_range_u8", name, ours, icu.get(), ranges_one_by_one);
        if (wanted("c_ranges_u8")) ranges("c_ranges_u8", name, ours, icu.get(), ranges_by_many);
        if (wanted("c_setfor_u8"))
            for (uint32_t value : {1u, 3u, 8u}) set_of(name, ours, icu.get(), value);
        if (wanted("c_build_u8"))
            for (bool is_fast : {true, false}) build(table, is_fast);
    }
    if (wanted("c_set_from_points")) set_from_points();
}
