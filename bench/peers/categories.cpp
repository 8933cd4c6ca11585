// The general category of code points, and of the characters of a text. Ours and ICU's macros read
// one table, that of bekstaudi_categories.h; all others read their own.
#include "../../c/bekstaudi.h"
#include "../../c/bekstaudi_categories.h"
#include "../driver/data.hpp"
#include "peers.hpp"
#include <algorithm>
#include <cstdio>
#include <glib.h>
#include <unicode/uchar.h>
#include <unicode/ucptrie.h>
#include <unicode/utf8.h>
#include <unictype.h>
#include <unistr.h>
#include <utf8proc.h>

using std::string;
using std::vector;

enum { POINTS = 4096, CHARACTERS = 4096, TURNS = 8, ALL = 0x110000, SHOWN = 4 };

static bks_trie our_trie;
static const UCPTrie *icu_trie;

static const uint8_t *bytes_of(const string &text) {
    return reinterpret_cast<const uint8_t *>(text.data());
}

// Each library: the type of its own number of a category, the number of a code point, the two
// letters of a number, and the numbers of the characters of a text.
struct Ours {
    typedef uint8_t Number;
    static constexpr const char *name = "ours";
    static Number of(uint32_t c) { return bks_get8(&our_trie, c); }
    static string letters(uint32_t c) { return bks_category_names[of(c)]; }
    static void text(const string &text, Number *__restrict numbers) {
        size_t taken;
        bks_trie8_copy_utf8(&our_trie, text.data(), text.size(), numbers, CHARACTERS, &taken);
    }
};

struct IcuMacro {
    typedef uint8_t Number;
    static constexpr const char *name = "ICU macro";
    static Number of(uint32_t c) { return UCPTRIE_FAST_GET(icu_trie, UCPTRIE_8, UChar32(c)); }
    static string letters(uint32_t c) { return bks_category_names[of(c)]; }
    static void text(const string &text, Number *__restrict numbers) {
        const uint8_t *at = bytes_of(text), *end = at + text.size();
        while (at < end) UCPTRIE_FAST_U8_NEXT(icu_trie, UCPTRIE_8, at, end, *numbers++);
    }
};

struct Icu {
    typedef uint8_t Number;
    static constexpr const char *name = "ICU";
    static Number of(uint32_t c) { return u_charType(c); }
    static string letters(uint32_t c) { return bks_category_names[of(c)]; }
    static void text(const string &text, Number *__restrict numbers) {
        const uint8_t *bytes = bytes_of(text);
        for (size_t i = 0; i < text.size();) {
            UChar32 c;
            U8_NEXT_OR_FFFD(bytes, i, text.size(), c);
            *numbers++ = of(c);
        }
    }
};

struct Glib {
    typedef uint8_t Number;
    static constexpr const char *name = "GLib";
    static Number of(uint32_t c) { return g_unichar_type(c); }
    static string letters(uint32_t c) {
        return string("CcCfCnCoCsLlLmLoLtLuMcMeMnNdNlNoPcPdPePfPiPoPsScSkSmSoZlZpZs")
            .substr(2 * of(c), 2);
    }
    static void text(const string &text, Number *__restrict numbers) {
        const char *end = text.data() + text.size();
        for (const char *at = text.data(); at < end; at = g_utf8_next_char(at))
            *numbers++ = of(g_utf8_get_char(at));
    }
};

struct Utf8proc {
    typedef uint8_t Number;
    static constexpr const char *name = "utf8proc";
    static Number of(uint32_t c) { return utf8proc_category(c); }
    static string letters(uint32_t c) { return utf8proc_category_string(c); }
    static void text(const string &text, Number *__restrict numbers) {
        const uint8_t *at = bytes_of(text), *end = at + text.size();
        while (at < end) {
            utf8proc_int32_t c;
            at += utf8proc_iterate(at, end - at, &c);
            *numbers++ = of(c);
        }
    }
};

struct Libunistring {
    typedef uint32_t Number;
    static constexpr const char *name = "libunistring";
    static Number of(uint32_t c) { return uc_general_category(c).bitmask; }
    static string letters(uint32_t c) { return uc_general_category_name(uc_general_category(c)); }
    static void text(const string &text, Number *__restrict numbers) {
        const uint8_t *at = bytes_of(text), *end = at + text.size();
        while (at < end) {
            ucs4_t c;
            at += u8_mbtouc(&c, at, end - at);
            *numbers++ = of(c);
        }
    }
};

// The compiler may not look into the loops from their callers, so it cannot remove any.
template <class Library> __attribute__((noipa)) static uint64_t sum_of(const uint32_t *points) {
    uint64_t sum = 0;
    for (size_t i = 0; i < POINTS; i++) sum += Library::of(points[i]);
    return sum;
}

template <class Library>
__attribute__((noipa)) static void look_along(const string &text,
                                              typename Library::Number *numbers) {
    Library::text(text, numbers);
}

// The two letters of each code point.
typedef vector<string> Letters;

template <class Library> static const Letters &table_of() {
    static Letters table;
    for (uint32_t c = table.size(); c < ALL; c++) table.push_back(Library::letters(c));
    return table;
}

// The newest version of Unicode that added a code point which the table has as assigned.
static string version_of(const Letters &table) {
    UVersionInfo newest = {}, age;
    for (uint32_t c = 0; c < ALL; c++) {
        if (table[c] == "Cn") continue;
        u_charAge(c, age);
        if (age[0] == 0) return "above " U_UNICODE_VERSION;
        if (age[0] > newest[0] || (age[0] == newest[0] && age[1] > newest[1]))
            std::copy(age, age + sizeof age, newest);
    }
    return std::to_string(newest[0]) + "." + std::to_string(newest[1]);
}

// Prints how a library's table differs from ours, and removes the code points that do from `same`.
// None may differ if both have the same version of Unicode.
template <class Library> static void compare(vector<bool> &same) {
    const Letters &ours = table_of<Ours>(), &theirs = table_of<Library>();
    size_t unassigned = 0, others = 0;
    string examples;
    char text[64];
    for (uint32_t c = 0; c < ALL; c++) {
        if (theirs[c] == ours[c]) continue;
        same[c] = false;
        if (theirs[c] == "Cn" || ours[c] == "Cn") {
            unassigned++;
        } else if (others++ < SHOWN) {
            snprintf(text, sizeof text, " U+%04X %s, ours %s", c, theirs[c].c_str(),
                     ours[c].c_str());
            examples += text;
        }
    }
    const string version = version_of(theirs);
    if (version == version_of(ours) && unassigned + others > 0)
        fail(string(Library::name) + " has other categories in the same version of Unicode");
    printf("table\t%s\t%s\t%zu\t%zu%s\n", Library::name, version.c_str(), unassigned, others,
           examples.c_str());
}

template <class Library> static void check(uint32_t c, typename Library::Number number) {
    if (number != Library::of(c) || table_of<Library>()[c] != table_of<Ours>()[c])
        fail(string(Library::name) + " has another category");
}

template <class Library> static Part points_part(const vector<uint32_t> &points) {
    for (uint32_t c : points) check<Library>(c, Library::of(c));
    return {Library::name, [&] {
                for (int i = 0; i < TURNS; i++) sum_of<Library>(points.data());
                return 0;
            }};
}

template <class Library> static Part text_part(const vector<uint32_t> &points, const string &text) {
    vector<typename Library::Number> numbers(CHARACTERS);
    look_along<Library>(text, numbers.data());
    for (size_t i = 0; i < CHARACTERS; i++) check<Library>(points[i], numbers[i]);
    return {Library::name, [&text, numbers]() mutable {
                for (int i = 0; i < TURNS; i++) look_along<Library>(text, numbers.data());
                return 0;
            }};
}

template <class... Libraries>
static void points_row(const string &name, uint32_t below, const vector<bool> &same) {
    vector<uint32_t> points;
    while (points.size() < POINTS) {
        const uint32_t c = random_number(below);
        if (same[c]) points.push_back(c);
    }
    row_of("points", name, POINTS * TURNS, {points_part<Libraries>(points)...});
}

template <class... Libraries> static void text_row(const Text &text) {
    vector<uint32_t> points;
    const uint8_t *bytes = bytes_of(text.bytes);
    for (size_t i = 0; i < text.bytes.size();) {
        UChar32 c;
        U8_NEXT_UNSAFE(bytes, i, c);
        points.push_back(c);
    }
    row_of("texts", text.name, CHARACTERS * TURNS, {text_part<Libraries>(points, text.bytes)...});
}

template <class... Libraries> static void rows() {
    vector<bool> same(ALL, true);
    (compare<Libraries>(same), ...);
    if (wanted("points")) {
        points_row<Libraries...>("Latin-1", 0x100, same);
        points_row<Libraries...>("below 0x10000", 0x10000, same);
        points_row<Libraries...>("all", ALL, same);
    }
    if (wanted("texts"))
        for (const Text &text : texts(CHARACTERS)) text_row<Libraries...>(text);
}

void compare_categories() {
    if (!wanted("points") && !wanted("texts")) return;
    UErrorCode error = U_ZERO_ERROR;
    icu_trie = ucptrie_openFromBinary(UCPTRIE_TYPE_FAST, UCPTRIE_VALUE_BITS_8, bks_category_table,
                                      sizeof bks_category_table, nullptr, &error);
    if (U_FAILURE(error) ||
        bks_open(&our_trie, bks_category_table, sizeof bks_category_table) != BKS_OK)
        fail("the table of categories can't be opened");
    rows<Ours, IcuMacro, Icu, Glib, Utf8proc, Libunistring>();
}
