/* Unit tries whose keys are texts, compared with ICU4C: look-ups and building in UTF-8, the keys
   that are prefixes of a text, the units that can come next, the one value of all keys ahead, and
   listings below a prefix, over the units of each file.
   Usage: icu_unit_texts STEP UNITS.., to ask about every 9 * STEP-th entry. */
#include "parts.h"
#include <set>
#include <string>
#include <unicode/appendable.h>
#include <unicode/ucharstrie.h>
#include <unicode/unistr.h>
#include <vector>

enum { STAYS = -77777 };

struct entry {
    std::u16string key;
    int32_t value;
};

/* A trie: its units, and its entries as ICU lists them. */
struct trie {
    std::vector<char16_t> units;
    std::vector<entry> all;
    const void *data() const { return units.data(); }
    size_t size() const { return 2 * units.size(); }
};

/* The entries that ICU lists from its position in the trie, their keys without what it passed. If
   nothing matched there are none: ICU 72 then reads by a null pointer. */
static std::vector<entry> by_icu(const icu::UCharsTrie &from, size_t most) {
    UErrorCode error = U_ZERO_ERROR;
    std::vector<entry> found;
    if (from.current() == USTRINGTRIE_NO_MATCH) return found;
    icu::UCharsTrie::Iterator next(from, 0, error);
    while (found.size() < most && next.next(error)) {
        const icu::UnicodeString &key = next.getString();
        found.push_back({std::u16string(key.getBuffer(), (size_t)key.length()), next.getValue()});
    }
    CHECK(U_SUCCESS(error));
    return found;
}

static std::string text_of(const std::u16string &key) {
    std::string text;
    icu::UnicodeString(key.data(), (int32_t)key.size()).toUTF8String(text);
    return text;
}

/* Whether the units are a text: no surrogate is on its own. */
static bool is_text(const std::u16string &key) {
    icu::UnicodeString units(key.data(), (int32_t)key.size());
    for (int32_t i = 0; i < units.length(); i = units.moveIndex32(i, 1))
        if (U_IS_SURROGATE(units.char32At(i))) return false;
    return true;
}

static const uint16_t *units_of(const std::u16string &text) {
    return (const uint16_t *)text.data();
}

/* A key in UTF-8, and all keys that are prefixes of a text. */
static void prefixes_as_icu(const trie &t, const std::u16string &text) {
    icu::UCharsTrie icu(t.units.data());
    std::vector<bks_prefix> wanted, in_bytes;
    UStringTrieResult told = icu.current();
    if (USTRINGTRIE_HAS_VALUE(told)) wanted.push_back({0, icu.getValue()});
    for (size_t i = 0; i < text.size() && USTRINGTRIE_HAS_NEXT(told); i++) {
        told = icu.next(text[i]);
        if (USTRINGTRIE_HAS_VALUE(told)) wanted.push_back({i + 1, icu.getValue()});
    }
    size_t n = wanted.size();
    for (size_t room = 0; room <= n + 1; room++) {
        std::vector<bks_prefix> found(room + 1, {77, 77});
        CHECK(bks_units_prefixes(t.data(), t.size(), units_of(text), text.size(), found.data(), room)
              == n);
        for (size_t i = 0; i < n && i < room; i++)
            CHECK(found[i].length == wanted[i].length && found[i].value == wanted[i].value);
        for (size_t i = n < room ? n : room; i <= room; i++)
            CHECK(found[i].length == 77 && found[i].value == 77);
    }
    if (!is_text(text)) return;
    std::string bytes = text_of(text);
    for (const bks_prefix &it : wanted) {
        std::u16string front = text.substr(0, it.length);
        if (is_text(front)) in_bytes.push_back({text_of(front).size(), it.value});
    }
    std::vector<bks_prefix> found(in_bytes.size() + 1, {77, 77});
    CHECK(bks_units_prefixes_utf8(t.data(), t.size(), bytes.data(), bytes.size(), found.data(),
                                  in_bytes.size()) == (int64_t)in_bytes.size());
    for (size_t i = 0; i < in_bytes.size(); i++)
        CHECK(found[i].length == in_bytes[i].length && found[i].value == in_bytes[i].value);
    CHECK(found[in_bytes.size()].length == 77);
    int32_t value = STAYS, in_units = STAYS;
    bool has = bks_units_get(t.data(), t.size(), units_of(text), text.size(), &in_units);
    CHECK(bks_units_get_utf8(t.data(), t.size(), bytes.data(), bytes.size(), &value) == has);
    CHECK(value == in_units);
    CHECK(has == (n > 0 && wanted[n - 1].length == text.size()));
    bytes += '\xC3';
    value = STAYS;
    CHECK(!bks_units_get_utf8(t.data(), t.size(), bytes.data(), bytes.size(), &value));
    CHECK(value == STAYS);
}

/* The next units and the one value at each position along a key, within at most `most` entries. */
static void nodes_as_icu(const trie &t, const std::u16string &key, size_t most) {
    icu::UCharsTrie icu(t.units.data());
    bks_cursor cursor = {0, 0};
    for (size_t i = 0;; i++) {
        icu::UnicodeString next;
        icu::UnicodeStringAppendable out(next);
        int32_t count = icu.getNextUChars(out);
        std::vector<uint16_t> found((size_t)count + 1, 77);
        CHECK(next.length() == count);
        CHECK(bks_units_next(t.data(), t.size(), &cursor, found.data(), (size_t)count) == count);
        for (int32_t k = 0; k < count; k++) CHECK(found[(size_t)k] == next[k]);
        CHECK(found[(size_t)count] == 77);
        std::vector<entry> ahead = by_icu(icu, most);
        std::set<int32_t> values;
        for (const entry &it : ahead) values.insert(it.value);
        if (ahead.size() < most || values.size() > 1) {
            int32_t value = STAYS;
            int64_t one = bks_units_unique(t.data(), t.size(), &cursor, &value);
            CHECK(one == (values.size() == 1) && value == (one ? *values.begin() : STAYS));
        }
        if (i == key.size()) break;
        icu.next(key[i]);
        bks_units_step(t.data(), t.size(), &cursor, key[i]);
    }
}

/* Lists the entries below a text in pages of these sizes, and compares the first ones with ICU. */
static void pages_as_icu(const trie &t, const std::u16string &prefix, size_t most, size_t page,
                         size_t room) {
    icu::UCharsTrie icu(t.units.data());
    for (char16_t unit : prefix) icu.next(unit);
    std::vector<entry> wanted = by_icu(icu, most);
    std::string front = text_of(prefix);
    std::vector<bks_word> words(page + 1);
    std::string texts(room + 1, '~');
    size_t at = 0, used = 0;
    for (bool ends = false; !ends && at < wanted.size();) {
        words[page] = {77, 77, 77};
        int64_t n = bks_units_list_below(t.data(), t.size(), front.data(), front.size(), at,
                                         words.data(), page, &texts[0], room, &used);
        CHECK(n >= 0 && (size_t)n <= page && texts[room] == '~' && words[page].start == 77);
        size_t start = 0;
        for (size_t i = 0; i < (size_t)n && at + i < wanted.size(); i++) {
            std::string text = text_of(prefix + wanted[at + i].key);
            CHECK(words[i].start == start && words[i].size == text.size());
            CHECK(words[i].value == wanted[at + i].value);
            CHECK(texts.compare(start, text.size(), text) == 0);
            start += text.size();
        }
        at += (size_t)n;
        if ((size_t)n == page) continue;
        ends = used <= room;
        if (ends) CHECK(at == wanted.size() || wanted.size() == most);
        if (ends || n > 0) continue;
        CHECK(used == text_of(prefix + wanted[at].key).size());
        room = used, texts.resize(room + 1, '~'), texts[room] = '~';
    }
    if (wanted.size() < most) CHECK(at == wanted.size());
    CHECK(bks_units_list_below(t.data(), t.size(), front.data(), front.size(), UINT64_MAX,
                               words.data(), page, &texts[0], room, &used) == 0 && used == 0);
}

/* What is built of the texts among the keys, and of their units, is the same, byte for byte. */
static size_t built(const trie &t) {
    std::string keys;
    std::u16string units;
    std::vector<size_t> sizes, lengths;
    std::vector<int32_t> values;
    for (size_t i = t.all.size(); i-- > 0;) {
        const entry &it = t.all[i];
        if (!is_text(it.key)) continue;
        std::string text = text_of(it.key);
        keys += text, units += it.key;
        sizes.push_back(text.size()), lengths.push_back(it.key.size());
        values.push_back(it.value);
    }
    std::vector<uint8_t> ours(4 * keys.size() + 32 * sizes.size() + 1, 77), same(ours);
    int64_t size = bks_units_build_utf8(keys.data(), keys.size(), sizes.data(), sizes.size(),
                                        values.data(), values.size(), ours.data(), ours.size());
    CHECK(size > 0 && (size_t)size < ours.size() && ours[(size_t)size] == 77);
    CHECK(bks_units_build(units_of(units), units.size(), lengths.data(), lengths.size(),
                          values.data(), values.size(), same.data(), same.size()) == size);
    CHECK(ours == same);
    std::vector<uint8_t> short_by_one((size_t)size - 1, 77);
    CHECK(bks_units_build_utf8(keys.data(), keys.size(), sizes.data(), sizes.size(), values.data(),
                               values.size(), short_by_one.data(), short_by_one.size()) == size);
    for (uint8_t byte : short_by_one) CHECK(byte == 77);
    return sizes.size();
}

static void compared(const char *name, size_t step) {
    trie t;
    size_t size;
    uint8_t *bytes = file_bytes(name, &size);
    t.units.resize(size / 2);
    memcpy(t.units.data(), bytes, size);
    t.all = by_icu(icu::UCharsTrie(t.units.data()), SIZE_MAX);
    for (size_t i = 0; i < t.all.size(); i += 9 * step) {
        const std::u16string &key = t.all[i].key;
        std::u16string other = key;
        if (!other.empty()) other[i % other.size()] ^= (char16_t)(1 << i % 16);
        for (const std::u16string &text : {key, key + u"S", key + key, other})
            prefixes_as_icu(t, text);
        if (i % (101 * step) == 0) nodes_as_icu(t, i % 2 ? key : other, 2000);
        std::u16string front = key.substr(0, i % (key.size() + 1));
        if (i % (61 * step) == 0 && is_text(front)) {
            pages_as_icu(t, front, 300, 1 + i % 70, 1 + i % 900);
            pages_as_icu(t, front + u"\uFFFE", 300, 9, 90);
        }
    }
    pages_as_icu(t, u"", SIZE_MAX, t.all.size() / 3 + 1, size);
    pages_as_icu(t, u"", SIZE_MAX, t.all.size(), 64 * t.all.size());
    printf("%s: %zu entries, %zu texts. ", name, t.all.size(), built(t));
}

int main(int count, char **words) {
    CHECK(count > 2 && atoi(words[1]) > 0);
    for (int i = 2; i < count; i++) compared(words[i], (size_t)atoi(words[1]));
    printf("\n");
    return 0;
}
