#include "lists.hpp"
#include "bench.hpp"
#include <algorithm>

using icu::UnicodeString;
using std::string;
using std::vector;

static void append(UnicodeString &key, const char *text) {
    key.append(UnicodeString::fromUTF8(text));
}

template <typename T, size_t N> static T any_of(const T (&all)[N]) { return all[random_number(N)]; }

// A name of two to six syllables.
UnicodeString keys::name() {
    static const char *const syllables[] = {"ka",  "lo",  "mi", "ren", "tu",  "sha", "vel", "or",
                                            "in",  "ba",  "de", "fro", "gu",  "hal", "is",  "jo",
                                            "kri", "lan", "mo", "ne",  "ol",  "pra", "qui", "ra",
                                            "ste", "tor", "ul", "va",  "wen", "yx"};
    UnicodeString key;
    for (uint32_t n = 2 + random_number(5); n > 0; n--) append(key, any_of(syllables));
    return key;
}

// A language, mostly with a script and a region.
UnicodeString keys::locale() {
    static const char *const scripts[] = {"-Latn", "-Cyrl", "-Arab", "-Hans", "-Hant",
                                          "-Deva", "",      "",      "",      ""};
    UnicodeString key;
    for (uint32_t n = 2 + random_number(2); n > 0; n--)
        key.append(char16_t('a' + random_number(26)));
    append(key, any_of(scripts));
    if (random_number(4) > 0) {
        key.append(char16_t('-'));
        for (int n = 0; n < 2; n++) key.append(char16_t('A' + random_number(26)));
    }
    return key;
}

// One to four pictures, joined or coloured.
UnicodeString keys::emoji() {
    UnicodeString key;
    for (uint32_t n = 1 + random_number(4); n > 0; n--) {
        key.append(UChar32(0x1F300 + random_number(0x350)));
        if (random_number(3) == 0) key.append(UChar32(0x1F3FB + random_number(5)));
        if (n > 1) key.append(char16_t(0x200D));
    }
    return key;
}

UnicodeString keys::han() {
    UnicodeString key;
    for (uint32_t n = 1 + random_number(3); n > 0; n--)
        key.append(char16_t(0x4E00 + random_number(3000)));
    return key;
}

List list_of(const string &name, size_t count, UnicodeString (*key)(), bool few_values) {
    List list = {name, {}, {}, {}, {}};
    for (size_t i = 0; i < count; i++) list.keys.push_back(key());
    std::sort(list.keys.begin(), list.keys.end());
    list.keys.erase(std::unique(list.keys.begin(), list.keys.end()), list.keys.end());
    shuffle(list.keys);
    for (const UnicodeString &each : list.keys) {
        list.values.push_back(few_values ? list.values.size() % 4 : list.values.size() * 7 + 1);
        for (int32_t i = 0; i < each.length(); i++) list.joined.push_back(each[i]);
        list.ends.push_back(list.joined.size());
    }
    return list;
}

vector<List> four_lists() {
    return {list_of("words", 10000, keys::name), list_of("locales", 4000, keys::locale),
            list_of("emoji", 3000, keys::emoji), list_of("han", 20000, keys::han)};
}

vector<uint16_t> text_of(const List &list) {
    vector<uint16_t> text;
    for (const UnicodeString &each : list.keys) {
        for (int32_t i = 0; i < each.length(); i++) text.push_back(each[i]);
        text.push_back(' ');
    }
    return text;
}
