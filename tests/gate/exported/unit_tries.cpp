/* Builds unit tries with ICU4C and writes what its UCharsTrie returns for prefixes of their keys:
   the units that can come next (getNextUChars), and the value that all keys with the prefix have
   (hasUniqueValue). The keys are random, or names of characters.
   Usage: unit_tries FILE

   The file has ICU's major version and the number of tries. Each trie has its units, the number of
   its prefixes, and for each prefix: its units, the units that can come next, the unique value by
   ICU, and the unique value by the entries. A value is 0, or 1 and the value.

   The two values may differ. If a branch of six or more units comes before any value, ICU 72 splits
   it and does not compare the values of the lower half with those of the upper half. */
#include "rows.hpp"
#include <iterator>
#include <map>
#include <optional>
#include <string>
#include <unicode/appendable.h>
#include <unicode/uchar.h>
#include <unicode/ucharstrie.h>
#include <unicode/ucharstriebuilder.h>
#include <unicode/unistr.h>
#include <unicode/uvernum.h>

typedef std::map<std::u16string, int32_t> entries;
typedef std::optional<int32_t> optional_value;

enum { NAMED_TRIES = 120, RANDOM_TRIES = 320 };

/* Returns the number of units that both keys start with. */
static size_t common_length(const std::u16string &one, const std::u16string &other) {
    size_t length = 0;
    while (length < one.size() && length < other.size() && one[length] == other[length]) length++;
    return length;
}

static bool starts_with(const std::u16string &key, const std::u16string &prefix) {
    return key.compare(0, prefix.size(), prefix) == 0;
}

/* Returns the value that all keys with the prefix have, by the entries themselves. */
static optional_value unique_value(const entries &all, const std::u16string &prefix) {
    optional_value found;
    for (auto it = all.lower_bound(prefix); it != all.end(); ++it) {
        if (!starts_with(it->first, prefix)) break;
        if (found && *found != it->second) return {};
        found = it->second;
    }
    return found;
}

/* Returns whether the keys with the prefix have a branch of six or more units. Two keys in a row
   that both go on after their common prefix are in two neighboring arms of a branch. */
static bool has_wide_branch(const entries &all, const std::u16string &prefix) {
    std::map<std::u16string, int> arms;
    for (auto it = all.lower_bound(prefix); it != all.end(); ++it) {
        auto next = std::next(it);
        if (next == all.end() || !starts_with(next->first, prefix)) break;
        size_t length = common_length(it->first, next->first);
        if (length < it->first.size() && ++arms[it->first.substr(0, length)] == 5) return true;
    }
    return false;
}

static void write_value(Rows &rows, const optional_value &value) {
    rows.one(value.has_value());
    if (value) rows.two((uint32_t)*value);
}

static void write_prefix(Rows &rows, const entries &all, icu::UCharsTrie &trie,
                         const std::u16string &prefix) {
    trie.reset();
    for (char16_t unit : prefix) trie.next(unit);
    icu::UnicodeString next;
    icu::UnicodeStringAppendable appended(next);
    CHECK(trie.getNextUChars(appended) == next.length());
    int32_t value = 0;
    optional_value by_icu, by_entries = unique_value(all, prefix);
    if (trie.hasUniqueValue(value)) by_icu = value;
    CHECK(by_icu == by_entries || (!by_entries && has_wide_branch(all, prefix)));
    rows.list(prefix);
    rows.list(std::u16string(next.getBuffer(), (size_t)next.length()));
    write_value(rows, by_icu);
    write_value(rows, by_entries);
}

/* Returns each prefix of every `step`-th key once, and these keys with one bit changed. */
static std::vector<std::u16string> prefixes_of(const entries &all, size_t step) {
    std::vector<std::u16string> prefixes = {u""};
    std::u16string before;
    size_t number = 0;
    for (const auto &it : all) {
        std::u16string key = it.first;
        if (number++ % step != 0 || key.empty()) continue;
        for (size_t length = common_length(before, key) + 1; length <= key.size(); length++)
            prefixes.push_back(key.substr(0, length));
        before = key;
        key[below((uint32_t)key.size())] ^= (char16_t)(1 << below(16));
        prefixes.push_back(key);
    }
    return prefixes;
}

static void write_trie(Rows &rows, const entries &all, UStringTrieBuildOption option, size_t step) {
    UErrorCode error = U_ZERO_ERROR;
    icu::UCharsTrieBuilder builder(error);
    for (const auto &it : all) {
        icu::UnicodeString key(it.first.data(), (int32_t)it.first.size());
        builder.add(key, it.second, error);
    }
    icu::UnicodeString units;
    builder.buildUnicodeString(option, units, error);
    CHECK(U_SUCCESS(error));
    rows.list(std::u16string(units.getBuffer(), (size_t)units.length()));
    icu::UCharsTrie trie(units.getBuffer());
    std::vector<std::u16string> prefixes = prefixes_of(all, step);
    rows.two((uint32_t)prefixes.size());
    for (const auto &prefix : prefixes) write_prefix(rows, all, trie, prefix);
}

/* Returns the names of characters from `first` on, at most `most` of them, with their general
   categories as values. */
static entries names(UChar32 first, size_t most) {
    entries all;
    char name[256];
    for (UChar32 c = first; c < 0x20000 && all.size() < most; c++) {
        UErrorCode error = U_ZERO_ERROR;
        int32_t length = u_charName(c, U_UNICODE_CHAR_NAME, name, sizeof name, &error);
        if (U_FAILURE(error) || length == 0) continue;
        all[std::u16string(name, name + length)] = u_charType(c);
    }
    return all;
}

/* Returns a random key of units of the alphabet, or of any units if it is empty. */
static std::u16string random_key(const std::u16string &alphabet, uint32_t most) {
    std::u16string key;
    for (uint32_t length = below(most + 1); length > 0; length--) {
        uint32_t number = below(alphabet.empty() ? 0x10000 : (uint32_t)alphabet.size());
        key += alphabet.empty() ? (char16_t)number : alphabet[number];
    }
    return key;
}

/* Returns random entries. Their values are any numbers, or one of up to four: chosen at random, by
   the first unit of the key, or by its length. */
static entries random_entries() {
    static const std::u16string alphabets[] = {
        u"ab", u"abcdef", u"abcdefghijklmnop", u"",
        {0, 0xE9, 0x4E16, 0xD83D, 0xDE00, 0xDE01, 0xFFFF}};
    const std::u16string &alphabet = alphabets[below(5)];
    std::vector<int32_t> values(1 + below(4));
    for (int32_t &value : values) value = (int32_t)((uint32_t)random_bits() >> below(32));
    uint32_t count = 1 + below(below(2) ? 400 : 30), most = below(4) ? 1 + below(8) : 60;
    uint32_t way = below(4), of = (uint32_t)values.size();
    entries all;
    for (; count > 0; count--) {
        std::u16string key = random_key(alphabet, most);
        uint32_t first = key.empty() ? 0 : key[0] % 16, length = (uint32_t)key.size();
        uint32_t number = way == 0 ? below(of) : way == 1 ? first * of / 16 : length % of;
        all[key] = way == 3 ? (int32_t)((uint32_t)random_bits() >> below(32)) : values[number];
    }
    return all;
}

int main(int count, char **words) {
    CHECK(count == 2);
    Rows rows;
    rows.one(U_ICU_VERSION_MAJOR_NUM);
    rows.two(2 + NAMED_TRIES + RANDOM_TRIES);
    const UStringTrieBuildOption options[] = {USTRINGTRIE_BUILD_FAST, USTRINGTRIE_BUILD_SMALL};
    entries two_halves = {{u"a", 1}, {u"b", 1}, {u"c", 1}, {u"d", 2}, {u"e", 2}, {u"f", 2}};
    write_trie(rows, two_halves, options[0], 1);
    for (int i = 0; i < NAMED_TRIES; i++) write_trie(rows, names(64 * i, 60), options[i % 2], 1);
    for (int i = 0; i < RANDOM_TRIES; i++) write_trie(rows, random_entries(), options[i % 2], 1);
    write_trie(rows, names(0, 0x20000), options[1], 1000);
    rows.write(words[1]);
    return 0;
}
