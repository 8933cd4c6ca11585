/* Functions over unit tries that ICU4C builds, compared with its UCharsTrie: all keys and their
   neighbours. Writes the units of each trie to NAME.units, and the keys of one to names.keys.txt,
   in lines KEY;N.
   Usage: icu_unit_tries STEP, to use the name of every STEP-th code point. */
#include "parts.h"
#include <map>
#include <string>
#include <unicode/uchar.h>
#include <unicode/ucharstrie.h>
#include <unicode/ucharstriebuilder.h>
#include <unicode/unistr.h>
#include <vector>

typedef std::map<std::u16string, int32_t> entries;

enum { STAYS = -77777 };

static uint64_t state = 88172645463325252u;

static uint32_t below(uint32_t limit) {
    state ^= state << 13;
    state ^= state >> 7;
    state ^= state << 17;
    return (uint32_t)(state >> 16) % limit;
}

static bool as_icu(const bks_cursor &cursor, const std::string &units, const icu::UCharsTrie &trie,
                   UStringTrieResult told) {
    int32_t value = STAYS;
    bool has = bks_units_value(units.data(), units.size(), &cursor, &value);
    CHECK(has == USTRINGTRIE_HAS_VALUE(told));
    CHECK(value == (has ? trie.getValue() : STAYS));
    return has;
}

/* The steps of a text, its value, and the longest key that is a prefix of it. */
static void units_as_icu(const std::string &units, icu::UCharsTrie &trie,
                         const std::u16string &text) {
    bks_cursor cursor = {0, 0};
    int32_t value = STAYS, longest = STAYS;
    trie.reset();
    UStringTrieResult told = trie.current();
    bool has = as_icu(cursor, units, trie, told);
    int64_t most = has ? 0 : BKS_NO_KEY;
    if (has) longest = trie.getValue();
    for (size_t i = 0; i < text.size(); i++) {
        told = trie.next(text[i]);
        uint32_t step = bks_units_step(units.data(), units.size(), &cursor, text[i]);
        CHECK(step == (uint32_t)told);
        has = as_icu(cursor, units, trie, told);
        if (has) most = (int64_t)i + 1, longest = trie.getValue();
    }
    const uint16_t *key = (const uint16_t *)text.data();
    CHECK(bks_units_get(units.data(), units.size(), key, text.size(), &value) == has);
    CHECK(value == (has ? trie.getValue() : STAYS));
    value = STAYS;
    CHECK(bks_units_longest(units.data(), units.size(), key, text.size(), &value) == most);
    CHECK(value == longest);
}

/* The longest key in UTF-8, if the units are a text. */
static void text_as_icu(const std::string &units, icu::UCharsTrie &trie,
                        const std::u16string &text) {
    icu::UnicodeString characters(text.data(), (int32_t)text.size());
    int32_t value = STAYS, longest = STAYS, n = characters.length();
    for (int32_t i = 0; i < n; i = characters.moveIndex32(i, 1))
        if (U_IS_SURROGATE(characters.char32At(i))) return;
    trie.reset();
    UStringTrieResult told = trie.current();
    int64_t most = BKS_NO_KEY;
    if (USTRINGTRIE_HAS_VALUE(told)) most = 0, longest = trie.getValue();
    for (int32_t i = 0; i < n; i = characters.moveIndex32(i, 1)) {
        told = trie.nextForCodePoint(characters.char32At(i));
        if (!USTRINGTRIE_HAS_VALUE(told)) continue;
        std::string front;
        characters.tempSubString(0, characters.moveIndex32(i, 1)).toUTF8String(front);
        most = (int64_t)front.size(), longest = trie.getValue();
    }
    std::string bytes;
    characters.toUTF8String(bytes);
    CHECK(bks_units_longest_utf8(units.data(), units.size(), bytes.data(), bytes.size(), &value)
          == most);
    CHECK(value == longest);
}

/* The trie of the entries: each key, and shorter, longer and changed ones. */
static void compared(const char *name, const entries &all, UStringTrieBuildOption option) {
    UErrorCode error = U_ZERO_ERROR;
    icu::UCharsTrieBuilder builder(error);
    for (const auto &it : all)
        builder.add(icu::UnicodeString(it.first.data(), (int32_t)it.first.size()), it.second,
                    error);
    icu::UnicodeString built;
    builder.buildUnicodeString(option, built, error);
    CHECK(U_SUCCESS(error));
    const std::string units((const char *)built.getBuffer(), 2 * (size_t)built.length());
    icu::UCharsTrie trie(built.getBuffer());
    for (const auto &it : all) {
        int32_t value = STAYS;
        const uint16_t *key = (const uint16_t *)it.first.data();
        CHECK(bks_units_get(units.data(), units.size(), key, it.first.size(), &value));
        CHECK(value == it.second);
        std::u16string other = it.first;
        if (!other.empty()) other[below((uint32_t)other.size())] ^= (char16_t)(1 << below(16));
        std::vector<std::u16string> texts = {it.first, it.first + u"S", it.first + it.first, other};
        texts.push_back(it.first.substr(0, below((uint32_t)it.first.size() + 1)));
        for (const auto &text : texts) {
            units_as_icu(units, trie, text);
            text_as_icu(units, trie, text);
        }
    }
    FILE *file = fopen((std::string(name) + ".units").c_str(), "wb");
    CHECK(file && fwrite(units.data(), 1, units.size(), file) == units.size());
    fclose(file);
    printf("%s: %zu keys in %zu bytes. ", name, all.size(), units.size());
}

/* The names of characters, and their code points. */
static entries names(UChar32 step) {
    entries all;
    char name[256];
    FILE *file = fopen("names.keys.txt", "w");
    CHECK(file);
    for (UChar32 c = 0; c < CODE_POINTS; c += step) {
        UErrorCode error = U_ZERO_ERROR;
        int32_t n = u_charName(c, U_UNICODE_CHAR_NAME, name, sizeof name, &error);
        if (U_FAILURE(error) || n == 0) continue;
        all[std::u16string(name, name + n)] = c;
        fprintf(file, "%s;%d\n", name, c);
    }
    fclose(file);
    return all;
}

/* Short keys of few units, surrogates among them, and values of all lengths; the empty key. */
static entries dense(void) {
    static const char16_t some[] = {'a', 'b', 0, 0xFFFF, 0xD83D, 0xDE00, 0xDE01, 0xE9, 0x4E16};
    entries all;
    for (int n = 0; n < 4000; n++) {
        std::u16string key;
        for (uint32_t k = below(7); k > 0; k--) key += some[below(9)];
        all[key] = (int32_t)((uint32_t)(state >> 24) >> below(32));
    }
    all[u""] = INT32_MIN;
    return all;
}

/* A branch of very many units, with keys below some of them. */
static entries wide(void) {
    entries all;
    for (uint32_t c = 0; c < 0x10000; c += 1 + below(9)) {
        all[std::u16string(1, (char16_t)c)] = (int32_t)(c << below(16));
        if (below(8) == 0) all[std::u16string(1 + below(40), (char16_t)c)] = -(int32_t)c;
    }
    return all;
}

int main(int count, char **words) {
    CHECK(count == 2 && atoi(words[1]) > 0);
    compared("names", names(atoi(words[1])), USTRINGTRIE_BUILD_SMALL);
    compared("dense", dense(), USTRINGTRIE_BUILD_FAST);
    compared("wide", wide(), USTRINGTRIE_BUILD_SMALL);
    printf("\n");
    return 0;
}
