// Unit tries by this repository's C functions compared with ICU: steps, keys in UTF-8, all prefixes,
// listing, the next units, and building. All read ICU's fast form.
#include "../../c/bekstaudi.h"
#include "bench.hpp"
#include "calls.hpp"
#include "lists.hpp"
#include <algorithm>
#include <unicode/appendable.h>
#include <unicode/ucharstrie.h>
#include <unicode/ucharstriebuilder.h>
#include <unicode/utf8.h>

using icu::UCharsTrie;
using icu::UnicodeString;
using std::string;
using std::vector;

enum { ROOM = 1 << 22, NO_VALUE = 7 };

// A list, its unit trie as ICU builds it, and its keys in UTF-8, one after another.
struct Entries {
    List list;
    UnicodeString units;
    string joined;
    vector<size_t> ends, lengths, utf8_lengths;
    const void *start() const { return units.getBuffer(); }
    size_t size() const { return 2 * size_t(units.length()); }
};

static UnicodeString built_by_icu(const List &list) {
    UErrorCode error = U_ZERO_ERROR;
    icu::UCharsTrieBuilder builder(error);
    for (size_t i = 0; i < list.keys.size(); i++) builder.add(list.keys[i], list.values[i], error);
    UnicodeString built;
    builder.buildUnicodeString(USTRINGTRIE_BUILD_FAST, built, error);
    if (U_FAILURE(error)) fail(u_errorName(error));
    // The builder still owns the buffer, so return a copy.
    return UnicodeString(built.getBuffer(), built.length());
}

static Entries entries_of(const List &list) {
    Entries all = {list, built_by_icu(list), "", {}, {}, {}};
    for (const UnicodeString &key : list.keys) {
        const size_t before = all.joined.size();
        key.toUTF8String(all.joined);
        all.ends.push_back(all.joined.size());
        all.lengths.push_back(key.length());
        all.utf8_lengths.push_back(all.joined.size() - before);
    }
    return all;
}

// Calls this with each key: its units or bytes, and how many they are.
template <class Unit, class End, class Turn>
__attribute__((noinline)) static uint64_t over_keys(const Unit *keys, const vector<End> &ends, const Turn &turn) {
    uint64_t sum = 0;
    size_t start = 0;
    for (size_t end : ends) {
        sum = mixed(sum, turn(keys + start, end - start));
        start = end;
    }
    return sum;
}

static int32_t value_after(const UCharsTrie &trie, UStringTrieResult result) {
    return USTRINGTRIE_HAS_VALUE(result) ? trie.getValue() : NO_VALUE;
}

// The value after each unit of each key.
static void steps(const Entries &all) {
    const List &list = all.list;
    row(
        "c_units_step", list.name, list.joined.size(),
        [&] {
            return over_keys(list.joined.data(), list.ends, [&](const uint16_t *key, size_t count) {
                bks_cursor cursor = {0, 0};
                uint32_t values = 0;
                for (size_t i = 0; i < count; i++) {
                    int32_t value = NO_VALUE;
                    if (bks_units_step(all.start(), all.size(), &cursor, key[i]) >= BKS_FINAL_VALUE)
                        bks_units_value(all.start(), all.size(), &cursor, &value);
                    values += value;
                }
                return values;
            });
        },
        nullptr, [&] {
            UCharsTrie trie(all.units.getBuffer());
            return over_keys(list.joined.data(), list.ends, [&](const uint16_t *key, size_t count) {
                trie.reset();
                uint32_t values = 0;
                for (size_t i = 0; i < count; i++) values += value_after(trie, trie.next(key[i]));
                return values;
            });
        });
}

static void keys_in_utf8(const Entries &all) {
    row(
        "c_units_get_utf8", all.list.name, all.joined.size(),
        [&] {
            return over_keys(all.joined.data(), all.ends, [&](const char *key, size_t size) {
                int32_t value = NO_VALUE;
                bks_units_get_utf8(all.start(), all.size(), key, size, &value);
                return value;
            });
        },
        nullptr, [&] {
            UCharsTrie trie(all.units.getBuffer());
            return over_keys(all.joined.data(), all.ends, [&](const char *key, size_t size) {
                trie.reset();
                UStringTrieResult result = USTRINGTRIE_NO_VALUE;
                for (size_t i = 0; i < size && USTRINGTRIE_MATCHES(result);) {
                    UChar32 c;
                    U8_NEXT(key, i, size, c);
                    if (c < 0) return int32_t(NO_VALUE);
                    result = trie.nextForCodePoint(c);
                }
                return value_after(trie, result);
            });
        });
}

// All keys that start at each position of a text: their lengths and values, mixed.
static void prefixes(const Entries &all) {
    const vector<uint16_t> text = text_of(all.list);
    row(
        "c_units_prefixes", all.list.name, text.size(),
        [&] {
            bks_prefix found[64];
            uint64_t sum = 0;
            for (size_t start = 0; start < text.size(); start++) {
                const size_t count = bks_units_prefixes(all.start(), all.size(), &text[start],
                                                        text.size() - start, found, 64);
                for (size_t i = 0; i < count; i++) sum = mixed(mixed(sum, found[i].length), found[i].value);
            }
            return sum;
        },
        nullptr, [&] {
            UCharsTrie trie(all.units.getBuffer());
            uint64_t sum = 0;
            for (size_t start = 0; start < text.size(); start++) {
                UStringTrieResult result = trie.first(text[start]);
                for (size_t i = start + 1;; i++) {
                    if (USTRINGTRIE_HAS_VALUE(result)) sum = mixed(mixed(sum, i - start), trie.getValue());
                    if (!USTRINGTRIE_HAS_NEXT(result) || i == text.size()) break;
                    result = trie.next(text[i]);
                }
            }
            return sum;
        });
}

// The longest key at each character of a text in UTF-8.
static void longest_in_utf8(const Entries &all) {
    string text;
    for (const UnicodeString &key : all.list.keys) key.toUTF8String(text), text += ' ';
    auto over_characters = [&](auto longest) {
        uint64_t sum = 0;
        for (size_t start = 0; start < text.size();) {
            sum = longest(start, sum);
            U8_FWD_1_UNSAFE(text, start);
        }
        return sum;
    };
    row(
        "c_units_longest_utf8", all.list.name, text.size(),
        [&] {
            return over_characters([&](size_t start, uint64_t sum) {
                int32_t value = NO_VALUE;
                const int64_t size = bks_units_longest_utf8(all.start(), all.size(), &text[start],
                                                            text.size() - start, &value);
                return mixed(mixed(sum, size < 0 ? 0 : size), value);
            });
        },
        nullptr, [&] {
            UCharsTrie trie(all.units.getBuffer());
            return over_characters([&](size_t start, uint64_t sum) {
                const char *const at = &text[start];
                const size_t size = text.size() - start;
                size_t i = 0, length = 0;
                int32_t value = NO_VALUE;
                UChar32 c;
                U8_NEXT(at, i, size, c);
                UStringTrieResult result = trie.firstForCodePoint(c);
                for (;;) {
                    if (USTRINGTRIE_HAS_VALUE(result)) length = i, value = trie.getValue();
                    if (!USTRINGTRIE_HAS_NEXT(result) || i == size) break;
                    U8_NEXT(at, i, size, c);
                    if (c < 0) break;
                    result = trie.nextForCodePoint(c);
                }
                return mixed(mixed(sum, length), value);
            });
        });
}

// All keys in UTF-8 in one buffer, and their values.
static void listing(const Entries &all) {
    vector<bks_word> words(all.list.keys.size());
    static vector<char> texts(ROOM);
    auto sum_of = [&](size_t count) {
        uint64_t sum = 0;
        for (size_t i = 0; i < count; i++) sum = mixed(mixed(sum, words[i].size), words[i].value);
        return mixed(sum, texts[words[count - 1].start]);
    };
    auto by_icu = [&] {
        UErrorCode error = U_ZERO_ERROR;
        UCharsTrie::Iterator entries(all.units.getBuffer(), 0, error);
        static string keys;
        keys.clear();
        uint64_t sum = 0;
        size_t start = 0;
        while (entries.next(error)) {
            start = keys.size();
            entries.getString().toUTF8String(keys);
            sum = mixed(mixed(sum, keys.size() - start), entries.getValue());
        }
        return mixed(sum, keys[start]);
    };
    size_t size;
    if (wanted("c_units_list"))
        row(
            "c_units_list", all.list.name, words.size(),
            [&] {
                return sum_of(bks_units_list(all.start(), all.size(), PARTS(words), PARTS(texts), &size));
            },
            nullptr, by_icu);
    if (wanted("c_units_list_below"))
        row(
            "c_units_list_below", all.list.name, words.size(),
            [&] {
                return sum_of(bks_units_list_below(all.start(), all.size(), nullptr, 0, 0, PARTS(words),
                                                   PARTS(texts), &size));
            },
            nullptr, by_icu);
}

// The units that can follow the first half of each key.
static void next_units(const Entries &all) {
    const List &list = all.list;
    row(
        "c_units_next", list.name, list.keys.size(),
        [&] {
            vector<uint16_t> next(1 << 16);
            return over_keys(list.joined.data(), list.ends, [&](const uint16_t *key, size_t count) {
                bks_cursor cursor = {0, 0};
                for (size_t i = 0; i < count / 2; i++)
                    bks_units_step(all.start(), all.size(), &cursor, key[i]);
                const int64_t found = bks_units_next(all.start(), all.size(), &cursor, PARTS(next));
                return 3 * found + (found > 0 ? next[found - 1] : 0);
            });
        },
        nullptr, [&] {
            UCharsTrie trie(all.units.getBuffer());
            UnicodeString next;
            icu::UnicodeStringAppendable into(next);
            return over_keys(list.joined.data(), list.ends, [&](const uint16_t *key, size_t count) {
                trie.reset();
                for (size_t i = 0; i < count / 2; i++) trie.next(key[i]);
                next.remove();
                const int64_t found = trie.getNextUChars(into);
                return 3 * found + (found > 0 ? next[found - 1] : 0);
            });
        });
}

static void build(const Entries &all) {
    const List &list = all.list;
    static vector<uint16_t> units(ROOM / 2);
    auto by_icu = [&] { return built_by_icu(list).length() == 0; };
    auto is_read = [&](int64_t size) {
        const UnicodeString built(reinterpret_cast<const char16_t *>(units.data()), int32_t(size / 2));
        UCharsTrie trie(built.getBuffer());
        for (size_t i = 0; i < list.keys.size(); i++) {
            trie.reset();
            const UStringTrieResult result = trie.next(list.keys[i].getBuffer(), list.keys[i].length());
            if (value_after(trie, result) != list.values[i]) fail(list.name + ": ICU reads another value");
        }
    };
    auto of_units = [&] {
        return bks_units_build(PARTS(list.joined), PARTS(all.lengths), PARTS(list.values), units.data(), ROOM);
    };
    auto of_utf8 = [&] {
        return bks_units_build_utf8(PARTS(all.joined), PARTS(all.utf8_lengths), PARTS(list.values), units.data(),
                                    ROOM);
    };
    each_build([&] { is_read(of_units()), is_read(of_utf8()); });
    if (wanted("c_units_build"))
        row(
            "c_units_build", list.name, list.keys.size(), [&] { return of_units() <= 0; }, nullptr, by_icu);
    if (wanted("c_units_build_utf8"))
        row(
            "c_units_build_utf8", list.name, list.keys.size(), [&] { return of_utf8() <= 0; }, nullptr, by_icu);
}

void c_units() {
    static const struct {
        const char *kernel;
        void (*measure)(const Entries &);
    } kernels[] = {{"c_units_step", steps},
                   {"c_units_get_utf8", keys_in_utf8},
                   {"c_units_prefixes", prefixes},
                   {"c_units_longest_utf8", longest_in_utf8},
                   {"c_units_next", next_units}};
    const bool lists = wanted("c_units_list") || wanted("c_units_list_below"),
               builds = wanted("c_units_build") || wanted("c_units_build_utf8");
    const auto is_wanted = [](const auto &it) { return wanted(it.kernel); };
    if (!lists && !builds && std::none_of(std::begin(kernels), std::end(kernels), is_wanted)) return;
    for (const List &list : four_lists()) {
        const Entries all = entries_of(list);
        for (const auto &it : kernels)
            if (wanted(it.kernel)) it.measure(all);
        if (lists) listing(all);
        if (builds) build(all);
    }
}
