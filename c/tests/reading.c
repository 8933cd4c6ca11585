/* How far a function reads in a text if its result does not depend on the rest. The size reaches past
   the text into a closed page, so that reading further than the header says ends the test. */
#include "parts.h"

/* A letter of each size in UTF-8, and a space. */
static const uint32_t ends[] = {' ', '!', 'a', 'b', 0xE9, 0xEA, 0x65E5, 0x65E6, 0x20000, 0x20001};
enum { ENDS = sizeof ends / sizeof ends[0], LONGEST = 120, PAST = 64, FOUR = 4, NINE = 9 };

static const char *const members[] = {"a", "\xC3\xA9", "\xE6\x97\xA5", "\xF0\xA0\x80\x80",
                                      "a\xC3\xA9", "\xE6\x97\xA5 "};
/* What ends a span: characters, and sequences that are cut off by the `-` after them. */
enum { CHARACTERS = 4 };
static const char *const others[] = {"-", "\xC3\x97", "\xE2\x82\xAC", "\xF0\x9F\x98\x80",
                                     "\x80", "\xC3", "\xE2\x82", "\xF0\x9F\x98"};

static uint64_t table[BKS_FROZEN_MOST];
static size_t words;

static int64_t span(const char *text, size_t size, bool frozen) {
    return frozen ? bks_frozen_span(table, words, text, size, true) : bks_set_span(ends, ENDS, text, size, true);
}

static int64_t span_back(const char *text, size_t size, bool frozen) {
    return frozen ? bks_frozen_span_back(table, words, text, size, true)
                  : bks_set_span_back(ends, ENDS, text, size, true);
}

/* A span of `times` members, what ends it, and then `-`: only `after` bytes can be read behind it. */
static void forward(const char *member, size_t times, size_t other, size_t after, bool frozen) {
    size_t part = strlen(member), size = times * part;
    char *text = (char *)before_closed_page(size + after);
    for (size_t i = 0; i < times; i++) memcpy(text + i * part, member, part);
    memset(text + size, '-', after);
    memcpy(text + size, others[other], strlen(others[other]));
    CHECK(span(text, size + after + PAST, frozen) == (times > 0 || other < CHARACTERS ? (int64_t)size : BKS_INVALID_UTF8));
    released(text, size + after);
}

static void spans(void) {
    for (size_t i = 0; i < sizeof members / sizeof members[0]; i++)
        for (size_t k = 0; k < sizeof others / sizeof others[0]; k++)
            for (size_t times = 0; times < LONGEST; times++) {
                forward(members[i], times, k, FOUR, false);
                forward(members[i], times, k, NINE, true);
            }
}

/* The text starts four bytes before the span, where a closed page ends. */
static void spans_back(void) {
    enum { SIZE = 2 * PAGE };
    uint8_t *pages = before_closed_page(SIZE);
    CHECK(mprotect(pages, PAGE, PROT_NONE) == 0);
    for (size_t i = 0; i < sizeof members / sizeof members[0]; i++)
        for (size_t times = 1; times < LONGEST; times++) {
            char *text = (char *)pages + PAGE;
            size_t part = strlen(members[i]);
            memset(text, '-', FOUR);
            for (size_t k = 0; k < times; k++) memcpy(text + FOUR + k * part, members[i], part);
            for (int frozen = 0; frozen < 2; frozen++)
                CHECK(span_back(text - PAST, PAST + FOUR + times * part, frozen) == PAST + FOUR);
        }
    released(pages, SIZE);
}

/* Keys at the start of a text: of the keys "a", "ab" and "é" none goes on with x. */
static void keys(void) {
    static const char all[] = "aab\xC3\xA9";
    static const size_t lengths[] = {1, 2, 2};
    static const int32_t values[] = {1, 2, 3};
    static const struct {
        const char *text;
        int64_t longest, keys;
    } rows[] = {{"ab", 2, 2}, {"ax", 1, 1}, {"\xC3\xA9", 2, 1}, {"x", BKS_NO_KEY, 0}, {"a\xC3\xA9", 1, 1}};
    uint8_t units[256];
    int64_t size = bks_units_build_utf8(all, sizeof all - 1, lengths, 3, values, 3, units, sizeof units);
    CHECK(size > 0);
    for (size_t i = 0; i < sizeof rows / sizeof rows[0]; i++) {
        size_t length = strlen(rows[i].text);
        int32_t value;
        bks_prefix found[4];
        char *text = (char *)memcpy(before_closed_page(length), rows[i].text, length);
        CHECK(bks_units_longest_utf8(units, (size_t)size, text, length + PAST, &value) == rows[i].longest);
        CHECK(bks_units_prefixes_utf8(units, (size_t)size, text, length + PAST, found, 4) == rows[i].keys);
        released(text, length);
        uint16_t *unit = (uint16_t *)before_closed_page(2);
        *unit = 'x';
        CHECK(bks_units_prefixes(units, (size_t)size, unit, 1 + PAST, found, 4) == 0);
        CHECK(bks_units_longest(units, (size_t)size, unit, 1 + PAST, &value) == BKS_NO_KEY);
        released(unit, 2);
    }
}

int main(void) {
    int64_t count = bks_set_freeze(ends, ENDS, table, BKS_FROZEN_MOST);
    CHECK(count > 0);
    words = (size_t)count;
    spans();
    spans_back();
    keys();
    printf("spans of up to %d members\n", LONGEST - 1);
    return 0;
}
