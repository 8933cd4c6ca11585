// Unit tries over generated lists of keys: listed, looked up and built. All libraries read ICU's
// fast form.
#include "../../c/bekstaudi.hpp"
#include "bench.hpp"
#include "calls.hpp"
#include "lists.hpp"
#include <algorithm>
#include <cstdio>
#include <unicode/ucharstrie.h>
#include <unicode/ucharstriebuilder.h>
#include <unicode/unistr.h>

using icu::UCharsTrie;
using icu::UCharsTrieBuilder;
using icu::UnicodeString;
using std::string;
using std::vector;

enum { UNITS_ROOM = 1 << 21, KEYS_ROOM = 1 << 22 };

static UnicodeString icu_units(const List &list, UStringTrieBuildOption option) {
    UErrorCode error = U_ZERO_ERROR;
    UCharsTrieBuilder builder(error);
    for (size_t i = 0; i < list.keys.size(); i++) builder.add(list.keys[i], list.values[i], error);
    UnicodeString built;
    builder.buildUnicodeString(option, built, error);
    if (U_FAILURE(error)) fail(u_errorName(error));
    // The builder still owns the buffer, so return a copy.
    return UnicodeString(built.getBuffer(), built.length());
}

static uint64_t icu_iter(const UnicodeString &units) {
    UErrorCode error = U_ZERO_ERROR;
    UCharsTrie::Iterator entries(units.getBuffer(), 0, error);
    uint64_t sum = 0;
    while (entries.next(error)) sum = mixed(sum, entries.getValue());
    return sum;
}

// The same, with each key as a text of its own in UTF-8, as ours returns it.
static uint64_t icu_texts(const UnicodeString &units) {
    UErrorCode error = U_ZERO_ERROR;
    UCharsTrie::Iterator entries(units.getBuffer(), 0, error);
    uint64_t sum = 0;
    while (entries.next(error)) {
        string key;
        entries.getString().toUTF8String(key);
        asm volatile("" : : "r"(key.data()) : "memory");
        sum = mixed(sum, entries.getValue());
    }
    return sum;
}

static string icu_keys(const UnicodeString &units) {
    UErrorCode error = U_ZERO_ERROR;
    UCharsTrie::Iterator entries(units.getBuffer(), 0, error);
    string all;
    while (entries.next(error)) entries.getString().toUTF8String(all), all += '\n';
    return all;
}

static int32_t value_after(const UCharsTrie &trie, UStringTrieResult result) {
    return USTRINGTRIE_HAS_VALUE(result) ? trie.getValue() : 7;
}

// Sums the values of all keys, or with `along` of all their prefixes.
static uint64_t icu_look(const UnicodeString &units, const List &list, bool along) {
    UCharsTrie trie(units.getBuffer());
    uint64_t sum = 0;
    size_t start = 0;
    for (uint32_t end : list.ends) {
        trie.reset();
        uint32_t values = 0;
        UStringTrieResult result = USTRINGTRIE_NO_VALUE;
        for (size_t i = start; i < end; i++) {
            result = trie.next(list.joined[i]);
            if (along) values += value_after(trie, result);
        }
        if (!along) values = value_after(trie, result);
        sum = mixed(sum, values);
        start = end;
    }
    return sum;
}

// The longest key at each position of a text: its length and its value, 0 and 7 if there is none.
static uint64_t icu_longest(const UnicodeString &units, const vector<uint16_t> &text) {
    UCharsTrie trie(units.getBuffer());
    uint64_t sum = 0;
    for (size_t start = 0; start < text.size(); start++) {
        uint32_t length = 0;
        int32_t value = 7;
        UStringTrieResult result = trie.first(text[start]);
        for (size_t i = start + 1;; i++) {
            if (USTRINGTRIE_HAS_VALUE(result)) length = i - start, value = trie.getValue();
            if (!USTRINGTRIE_HAS_NEXT(result) || i == text.size()) break;
            result = trie.next(text[i]);
        }
        sum = mixed(mixed(sum, length), value);
    }
    return sum;
}

static vector<uint8_t> bytes_of(const UnicodeString &units) {
    const uint8_t *bytes = reinterpret_cast<const uint8_t *>(units.getBuffer());
    return vector<uint8_t>(bytes, bytes + 2 * units.length());
}

// Checks that all three list the same keys.
static void compare_keys(const List &list, const UnicodeString &units,
                         const vector<uint8_t> &bytes) {
    string ours(KEYS_ROOM, ' '), rust(KEYS_ROOM, ' ');
    ours.resize(
        std::min(ours.size(),
                 ours_c16_keys(PARTS(bytes), reinterpret_cast<uint8_t *>(&ours[0]), ours.size())));
    rust.resize(
        std::min(rust.size(),
                 rust_c16_keys(PARTS(bytes), reinterpret_cast<uint8_t *>(&rust[0]), rust.size())));
    const string keys = icu_keys(units);
    if (ours != keys || rust != keys) fail(list.name + ": the keys differ");
}

// The value of each key, as icu_look finds it.
static uint64_t c_look(const vector<uint8_t> &bytes, const List &list) {
    uint64_t sum = 0;
    size_t start = 0;
    for (uint32_t end : list.ends) {
        int32_t value = 7;
        bks_units_get(PARTS(bytes), list.joined.data() + start, end - start, &value);
        sum = mixed(sum, value);
        start = end;
    }
    return sum;
}

// The longest key at each position, as icu_longest finds it.
static uint64_t c_longest(const vector<uint8_t> &bytes, const vector<uint16_t> &text) {
    uint64_t sum = 0;
    for (size_t start = 0; start < text.size(); start++) {
        int32_t value = 7;
        const int64_t length =
            bks_units_longest(PARTS(bytes), text.data() + start, text.size() - start, &value);
        sum = mixed(mixed(sum, length < 0 ? 0 : length), value);
    }
    return sum;
}

static std::u16string_view view_of(const uint16_t *units, size_t count) {
    return {reinterpret_cast<const char16_t *>(units), count};
}

// The same by the C++ classes.
static uint64_t cpp_look(const bekstaudi::unit_trie &trie, const List &list) {
    uint64_t sum = 0;
    size_t start = 0;
    for (uint32_t end : list.ends) {
        sum = mixed(sum, trie[view_of(list.joined.data() + start, end - start)].value_or(7));
        start = end;
    }
    return sum;
}

static uint64_t cpp_longest(const bekstaudi::unit_trie &trie, const vector<uint16_t> &text) {
    uint64_t sum = 0;
    for (size_t start = 0; start < text.size(); start++) {
        const auto found = trie.longest(view_of(text.data() + start, text.size() - start));
        sum = mixed(mixed(sum, found ? found->size : 0), found ? found->value : 7);
    }
    return sum;
}

static void read_by_classes(const List &list, const UnicodeString &units, const vector<uint8_t> &bytes) {
    const bekstaudi::unit_trie trie(bytes);
    const vector<uint16_t> text = text_of(list);
    row(
        "cpp_words", list.name + "-keys", list.joined.size(), [&] { return cpp_look(trie, list); },
        nullptr, [&] { return icu_look(units, list, false); });
    row(
        "cpp_words", list.name + "-longest", text.size(), [&] { return cpp_longest(trie, text); },
        nullptr, [&] { return icu_longest(units, text); });
}

static void read_by_c(const List &list, const UnicodeString &units, const vector<uint8_t> &bytes) {
    const vector<uint16_t> text = text_of(list);
    row(
        "c_words", list.name + "-keys", list.joined.size(), [&] { return c_look(bytes, list); },
        nullptr, [&] { return icu_look(units, list, false); });
    row(
        "c_words", list.name + "-longest", text.size(), [&] { return c_longest(bytes, text); },
        nullptr, [&] { return icu_longest(units, text); });
}

static void read(const List &list) {
    const UnicodeString units = icu_units(list, USTRINGTRIE_BUILD_FAST);
    const vector<uint8_t> bytes = bytes_of(units);
    if (wanted("c16_iter")) {
        each_build([&] { compare_keys(list, units, bytes); });
        row(
            "c16_iter", list.name, list.keys.size(), [&] { return ours_c16_iter(PARTS(bytes)); },
            [&] { return rust_c16_iter(PARTS(bytes)); }, [&] { return icu_iter(units); });
    }
    if (wanted("c16_texts"))
        row(
            "c16_texts", list.name, list.keys.size(), [&] { return ours_c16_iter(PARTS(bytes)); },
            [&] { return rust_c16_iter(PARTS(bytes)); }, [&] { return icu_texts(units); });
    if (wanted("c16_entries"))
        row(
            "c16_entries", list.name, list.keys.size(),
            [&] { return ours_c16_entries(PARTS(bytes)); }, nullptr,
            [&] { return icu_iter(units); });
    if (wanted("c16_longest")) {
        const vector<uint16_t> text = text_of(list);
        row(
            "c16_longest", list.name, text.size(),
            [&] { return ours_c16_longest(PARTS(bytes), PARTS(text)); }, nullptr,
            [&] { return icu_longest(units, text); });
    }
    if (wanted("c_words")) read_by_c(list, units, bytes);
    if (wanted("cpp_words")) read_by_classes(list, units, bytes);
    if (!wanted("c16_look")) return;
    for (bool along : {false, true})
        row(
            "c16_look", list.name + (along ? "-prefixes" : "-keys"), list.joined.size(),
            [&] {
                return ours_c16_look(PARTS(bytes), PARTS(list.joined), PARTS(list.ends), along);
            },
            [&] {
                return rust_c16_look(PARTS(bytes), PARTS(list.joined), PARTS(list.ends), along);
            },
            [&] { return icu_look(units, list, along); });
}

// Measures building. First checks that ICU's reader finds each value in the units that we build.
static void build(const List &list) {
    static vector<uint16_t> units(UNITS_ROOM);
    auto ours = [&] {
        return ours_c16_build(PARTS(list.joined), PARTS(list.ends), PARTS(list.values),
                              PARTS(units));
    };
    const UnicodeString fast = icu_units(list, USTRINGTRIE_BUILD_FAST);
    size_t count = 0;
    each_build([&] {
        count = ours();
        if (count == 0 || count > units.size()) fail(list.name + ": no unit trie is built");
        const UnicodeString built(reinterpret_cast<const char16_t *>(units.data()), count);
        if (icu_look(built, list, false) != icu_look(fast, list, false) ||
            icu_keys(built) != icu_keys(fast))
            fail(list.name + ": ICU reads other entries in the units");
    });
    row(
        "c16_build", list.name, list.keys.size(), [&] { return ours(), 0; }, nullptr,
        [&] { return icu_units(list, USTRINGTRIE_BUILD_FAST), 0; });
    printf("units\t%s\t%zu\t%zu\t%d\t%d\n", list.name.c_str(), list.keys.size(), count,
           fast.length(), icu_units(list, USTRINGTRIE_BUILD_SMALL).length());
}

void unit_tries() {
    if (wanted("c16_iter") || wanted("c16_texts") || wanted("c16_entries") || wanted("c16_look") ||
        wanted("c16_longest") || wanted("c_words") || wanted("cpp_words"))
        for (const List &list : four_lists()) read(list);
    if (!wanted("c16_build")) return;
    for (bool few : {false, true}) {
        const string values = few ? "-4values" : "";
        for (const List &list : {list_of("words" + values, 10000, keys::name, few),
                                 list_of("names" + values, 110000, keys::name, few),
                                 list_of("locales" + values, 4000, keys::locale, few),
                                 list_of("emoji" + values, 3000, keys::emoji, few),
                                 list_of("han" + values, 20000, keys::han, few)})
            build(list);
    }
    // Ten keys; key k is 20,000 times the unit k.
    List tall = {"long10", {}, {}, {}, {}};
    for (char16_t k = 1; k <= 10; k++) {
        tall.keys.push_back(UnicodeString(20000, k, 20000));
        tall.values.push_back(k);
        tall.joined.insert(tall.joined.end(), 20000, k);
        tall.ends.push_back(tall.joined.size());
    }
    build(tall);
}
