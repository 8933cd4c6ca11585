/* Unit tries that are listed and built, compared with ICU4C: the entries of each file of units are
   those of UCharsTrie::Iterator, and ICU reads a trie that is built of them in another order.
   Usage: icu_built_units UNITS.. */
#include "parts.h"
#include <algorithm>
#include <string>
#include <unicode/ucharstrie.h>
#include <unicode/unistr.h>
#include <vector>

struct entry {
    std::u16string key;
    int32_t value;
};

/* The entries as ICU lists them. */
static std::vector<entry> by_icu(const std::vector<char16_t> &units) {
    UErrorCode error = U_ZERO_ERROR;
    std::vector<entry> all;
    icu::UCharsTrie::Iterator next(units.data(), 0, error);
    while (next.next(error)) {
        const icu::UnicodeString &key = next.getString();
        all.push_back({std::u16string(key.getBuffer(), (size_t)key.length()), next.getValue()});
    }
    CHECK(U_SUCCESS(error));
    return all;
}

static std::string text_of(const std::u16string &key) {
    std::string text;
    icu::UnicodeString(key.data(), (int32_t)key.size()).toUTF8String(text);
    return text;
}

/* Lists units into buffers of this size: all that fits is written, and nothing else. */
static void listed(const std::vector<char16_t> &units, const std::vector<entry> &all,
                   size_t words_room, size_t texts_room) {
    std::vector<bks_word> words(words_room + 1, {77, 77, 77});
    std::string texts(texts_room + 1, '~');
    size_t size = 77, at = 0, kept = 0;
    bool fits = true;
    int64_t count = bks_units_list(units.data(), 2 * units.size(), words.data(), words_room,
                                   &texts[0], texts_room, &size);
    CHECK(count == (int64_t)all.size());
    for (size_t i = 0; i < all.size(); i++) {
        std::string text = text_of(all[i].key);
        fits = fits && i < words_room && at + text.size() <= texts_room;
        if (fits) {
            CHECK(words[i].start == at && words[i].size == text.size());
            CHECK(words[i].value == all[i].value && texts.compare(at, text.size(), text) == 0);
            kept = at + text.size();
        } else if (i < words_room)
            CHECK(words[i].start == 77 && words[i].size == 77 && words[i].value == 77);
        at += text.size();
    }
    CHECK(size == at && words[words_room].start == 77);
    CHECK(texts.find_first_not_of('~', kept) == std::string::npos);
}

/* Builds the units of a trie of the entries, in another order. */
static std::vector<char16_t> built(std::vector<entry> all, uint64_t state) {
    std::vector<uint16_t> keys(1);
    std::vector<size_t> lengths(1);
    std::vector<int32_t> values(1);
    for (size_t i = all.size(); i > 1; i--) {
        state = state * 6364136223846793005u + 1442695040888963407u;
        std::swap(all[i - 1], all[(size_t)(state >> 33) % i]);
    }
    keys.clear(), lengths.clear(), values.clear();
    for (const entry &it : all) {
        keys.insert(keys.end(), it.key.begin(), it.key.end());
        lengths.push_back(it.key.size());
        values.push_back(it.value);
    }
    auto call = [&](void *units, size_t room) {
        return bks_units_build(keys.data(), keys.size(), lengths.data(), lengths.size(),
                               values.data(), values.size(), units, room);
    };
    uint8_t none = 77;
    int64_t size = call(&none, 0);
    CHECK(size > 0 && size % 2 == 0);
    CHECK(size <= (int64_t)(4 * keys.size() + 32 * all.size()));
    std::vector<char16_t> units((size_t)size / 2, 0x7777);
    CHECK(call(units.data(), (size_t)size - 1) == size && units[0] == 0x7777);
    CHECK(call(units.data(), (size_t)size) == size);
    return units;
}

static void compared(const char *name) {
    size_t size;
    uint8_t *bytes = file_bytes(name, &size);
    std::vector<char16_t> units(size / 2);
    memcpy(units.data(), bytes, size);
    std::vector<entry> all = by_icu(units);
    std::string texts;
    for (const entry &it : all) texts += text_of(it.key);
    listed(units, all, all.size(), texts.size());
    listed(units, all, all.size() + 5, texts.size() + 5);
    listed(units, all, all.size() / 2, texts.size());
    listed(units, all, all.size(), texts.size() / 2);
    listed(units, all, all.size(), texts.size() - 1);
    listed(units, all, 0, 0);
    for (uint64_t state = 0; state < 3; state++) {
        std::vector<char16_t> ours = built(all, state);
        std::vector<entry> again = by_icu(ours);
        CHECK(again.size() == all.size());
        icu::UCharsTrie trie(ours.data());
        for (size_t i = 0; i < all.size(); i++) {
            CHECK(again[i].key == all[i].key && again[i].value == all[i].value);
            trie.reset();
            UStringTrieResult told = trie.current();
            for (char16_t unit : all[i].key) told = trie.next(unit);
            CHECK(USTRINGTRIE_HAS_VALUE(told) && trie.getValue() == all[i].value);
        }
        listed(ours, all, all.size(), texts.size());
        printf("%zu entries, %zu units, ICU's %zu. ", all.size(), ours.size(), units.size());
    }
}

int main(int count, char **words) {
    CHECK(count > 1);
    for (int i = 1; i < count; i++) compared(words[i]);
    printf("\n");
    return 0;
}
