/* Sets of code points and strings: worked examples, random sets beside ICU4C's (with -DWITH_ICU),
   texts before a closed page, ill-formed texts, and words and units that are no set.
   Usage: text_sets SETS */
#include "parts.h"

#ifdef WITH_ICU
#include <unicode/uset.h>
#include <unicode/ustring.h>
#endif

enum { WORDS = BKS_FROZEN_MOST, UNITS = 4096, STRINGS = 12, TEXT = 24 };

static uint64_t table[WORDS];
static size_t words;
static uint8_t units[UNITS];
static size_t units_size;

static uint64_t state = 88172645463325252u;

static uint32_t below(uint32_t limit) {
    state ^= state << 13;
    state ^= state >> 7;
    state ^= state << 17;
    return (uint32_t)(state >> 16) % limit;
}

/* Makes the set of these code points and strings, which may be in any order. */
static void make(const uint32_t *points, size_t points_count, const char *const *strings, size_t count) {
    static const int32_t values[STRINGS];
    uint32_t ends[64];
    size_t lengths[STRINGS], size = 0;
    char keys[STRINGS * TEXT];
    int64_t found = bks_set_from_points(points, points_count, ends, 64);
    CHECK(found >= 0 && found <= 64);
    words = (size_t)bks_set_freeze(ends, (size_t)found, table, WORDS);
    CHECK(words <= WORDS);
    for (size_t i = 0; i < count; i++) {
        lengths[i] = strlen(strings[i]);
        memcpy(keys + size, strings[i], lengths[i]);
        size += lengths[i];
    }
    found = bks_units_build_utf8(keys, size, lengths, count, values, count, units, UNITS);
    CHECK(found >= 0 && found <= UNITS);
    units_size = (size_t)found;
}

static bool contains(const char *text, size_t size) {
    return bks_text_set_contains(table, words, units, units_size, text, size);
}

/* The longest member at the start of a text, which ends before a closed page. */
static int64_t longest(const char *text, size_t size) {
    char *closed = (char *)before_closed_page(size);
    memcpy(closed, text, size);
    int64_t found = bks_text_set_longest(table, words, units, units_size, closed, size);
    released(closed, size);
    return found;
}

/* The same by definition: the longest prefix that is a member. */
static int64_t longest_tried(const char *text, size_t size) {
    for (size_t n = size; n > 0; n--)
        if (contains(text, n)) return (int64_t)n;
    return size > 0 && bks_set_span(NULL, 0, text, size, false) == BKS_INVALID_UTF8 ? BKS_INVALID_UTF8 : 0;
}

/* A span at the start of a text, which ends before a closed page. */
static int64_t span(const char *text, size_t size, bool held) {
    char *closed = (char *)before_closed_page(size);
    memcpy(closed, text, size);
    int64_t found = bks_text_set_span(table, words, units, units_size, closed, size, held);
    released(closed, size);
    return found;
}

/* The same by definition. */
static int64_t span_tried(const char *text, size_t size, bool held) {
    size_t end = 0;
    if (longest_tried(text, size) == BKS_INVALID_UTF8) return BKS_INVALID_UTF8;
    for (;;) {
        int64_t found = longest_tried(text + end, size - end), step = 0;
        if (held) step = found > 0 ? found : 0;
        else if (found == 0) while (end + (size_t)++step < size && (text[end + (size_t)step] & 0xC0) == 0x80) {}
        if (step == 0 || end == size) return (int64_t)end;
        end += (size_t)step;
    }
}

#define HAND "\xF0\x9F\x91\x8B"
#define DARK "\xF0\x9F\x8F\xBF"

static void worked_examples(void) {
    static const uint32_t points[] = {'a', 0xE9, 0x1F44B};
    static const char *const strings[] = {HAND DARK, "ab", "abc", "b", ""};
    static const struct {
        const char *text;
        bool is_member;
        int64_t longest;
    } rows[] = {
        {"a", true, 1},          {"\xC3\xA9", true, 2},   {HAND, true, 4},
        {HAND DARK, true, 8},    {DARK, false, 0},        {"ab", true, 2},
        {"abc", true, 3},        {"abd", false, 2},       {"b", false, 0}, /* a key of one character */
        {"", true, 0},           {"aa", false, 1},        {"x", false, 0},
        {HAND "\xF0\x9F", false, 4},                      {"ab\xFF", false, 2},
        {"\xFF", false, BKS_INVALID_UTF8},                {"\xF0\x9F\x91", false, BKS_INVALID_UTF8},
        {"\xED\xA0\xBD", false, BKS_INVALID_UTF8},        {"a\xFF", false, 1},
    };
    make(points, 3, strings, 5);
    for (size_t i = 0; i < sizeof rows / sizeof rows[0]; i++) {
        size_t size = strlen(rows[i].text);
        CHECK(contains(rows[i].text, size) == rows[i].is_member);
        CHECK(longest(rows[i].text, size) == rows[i].longest);
    }
    CHECK(span("abcaba" HAND DARK "x", 15, true) == 14 && span("xy" DARK HAND, 10, false) == 6);
    CHECK(span("bab", 3, false) == 1 && span("bab", 3, true) == 0 && span("", 0, true) == 0);
    CHECK(span("\xFF", 1, true) == BKS_INVALID_UTF8 && span("a\xFF", 2, true) == 1 && span("x\xFF", 2, false) == 1);
    /* The text goes on. */
    CHECK(longest(HAND DARK "ab", 10) == 8 && longest("abcabc", 6) == 3);
}

/* Parts of texts: characters of one to four bytes, and one that is ill-formed. */
static const char *const parts[] = {"a", "b", "\xC3\xA9", "\xE2\x80\x8D", HAND, DARK, "\xFF"};
static const uint32_t points_of_parts[] = {'a', 'b', 0xE9, 0x200D, 0x1F44B, 0x1F3FF};

/* Writes a text of some parts. The last one occurs only if `ill_formed`. */
static size_t some_text(char *text, uint32_t most, bool ill_formed) {
    text[0] = 0;
    for (uint32_t n = below(most + 1); n > 0; n--) strcat(text, parts[below(ill_formed ? 7 : 6)]);
    return strlen(text);
}

#ifdef WITH_ICU
static USet *peer;

static void make_peer(const uint32_t *points, size_t points_count, const char *const *strings, size_t count) {
    UChar to[TEXT];
    int32_t length;
    UErrorCode code = U_ZERO_ERROR;
    peer = uset_openEmpty();
    for (size_t i = 0; i < points_count; i++) uset_add(peer, (UChar32)points[i]);
    for (size_t i = 0; i < count; i++) {
        u_strFromUTF8(to, TEXT, &length, strings[i], -1, &code);
        CHECK(U_SUCCESS(code));
        /* ICU adds a string of one character to the code points. */
        if (u_countChar32(to, length) != 1) uset_addString(peer, to, length);
    }
}

/* ICU's answer for a text that is UTF-8. */
static bool is_in_peer(const char *text, size_t size) {
    UChar to[4 * TEXT];
    int32_t length;
    UErrorCode code = U_ZERO_ERROR;
    u_strFromUTF8(to, 4 * TEXT, &length, text, (int32_t)size, &code);
    return U_SUCCESS(code) && uset_containsString(peer, to, length);
}

/* ICU's span of a text that is UTF-8, in bytes. */
static int64_t span_of_peer(const char *text, size_t size, bool held) {
    return uset_spanUTF8(peer, text, (int32_t)size, held ? USET_SPAN_SIMPLE : USET_SPAN_NOT_CONTAINED);
}
#endif

/* Makes strings, each one once. Returns how many. */
static size_t some_strings(char texts[][TEXT], const char **strings) {
    size_t count = 0;
    for (uint32_t n = below(STRINGS + 1); n > 0; n--) {
        bool is_new = true;
        some_text(texts[count], 4, false);
        strings[count] = texts[count];
        for (size_t i = 0; i < count; i++) is_new &= strcmp(texts[i], texts[count]) != 0;
        count += is_new;
    }
    return count;
}

static void random_set(void) {
    uint32_t points[6];
    char texts[STRINGS + 1][TEXT], text[64];
    const char *strings[STRINGS + 1];
    size_t points_count = 0, count = some_strings(texts, strings);
    for (size_t i = 0; i < 6; i++)
        if (below(2)) points[points_count++] = points_of_parts[i];
    make(points, points_count, strings, count);
#ifdef WITH_ICU
    make_peer(points, points_count, strings, count);
#endif
    for (int turn = 0; turn < 400; turn++) {
        bool ill_formed = below(3) == 0;
        size_t size = some_text(text, 8, ill_formed);
#ifdef WITH_ICU
        if (size > 0) CHECK(contains(text, size) == is_in_peer(text, size));
        for (int held = 0; held < 2 && !ill_formed; held++)
            CHECK(span(text, size, held) == span_of_peer(text, size, held));
#endif
        CHECK(span(text, size, true) == span_tried(text, size, true));
        CHECK(span(text, size, false) == span_tried(text, size, false));
        CHECK(longest(text, size) == longest_tried(text, size));
    }
#ifdef WITH_ICU
    uset_close(peer);
#endif
}

/* Words and units that are cut off or changed: nothing is read outside them. */
static void damaged(void) {
    char text[64];
    for (int turn = 0; turn < 200; turn++) {
        size_t kept = below(2) ? below((uint32_t)words + 1) : words, size = below((uint32_t)units_size + 1);
        uint64_t *front = (uint64_t *)(void *)before_closed_page(8 * kept);
        uint8_t *bytes = before_closed_page(size);
        memcpy(front, table, 8 * kept);
        memcpy(bytes, units, size);
        for (int i = 0; i < 4 && kept > 0; i++) front[below((uint32_t)kept)] ^= (uint64_t)1 << below(64);
        for (int i = 0; i < 3 && size > 0; i++) bytes[below((uint32_t)size)] ^= (uint8_t)(1 + below(255));
        size_t length = some_text(text, 8, true);
        bool is_member = bks_text_set_contains(front, kept, bytes, size, text, length);
        int64_t found = bks_text_set_longest(front, kept, bytes, size, text, length);
        CHECK(found == BKS_INVALID_UTF8 || (found >= 0 && (size_t)found <= length));
        int64_t spanned = bks_text_set_span(front, kept, bytes, size, text, length, turn & 1);
        CHECK(spanned == BKS_INVALID_UTF8 || (spanned >= 0 && (size_t)spanned <= length));
        CHECK(!is_member || length == 0 || found == (int64_t)length);
        released(front, 8 * kept);
        released(bytes, size);
    }
}

int main(int count, char **given) {
    CHECK(count == 2);
    worked_examples();
    damaged();
    for (int n = atoi(given[1]); n > 0; n--) random_set();
    damaged();
    printf("%s sets\n", given[1]);
    return 0;
}
