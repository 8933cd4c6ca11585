/* Functions over sets, compared with tables of a flag for each code point, and with ICU4C
   (WITH_ICU).
   Usage: sets PAIRS */
#include "set_tables.h"
#ifdef WITH_ICU
#include <unicode/uset.h>
#endif

static set_table a, b;

/* Tests each code point, and the size of the set. */
static void asks(const set_table *s) {
    int64_t size = 0;
    CHECK(bks_set_test(s->ends, s->count));
    for (uint32_t c = 0; c < CODE_POINTS; c++) {
        CHECK(bks_set_contains(s->ends, s->count, c) == s->held[c]);
        size += s->held[c];
    }
    CHECK(bks_set_size(s->ends, s->count) == size);
    CHECK(!bks_set_contains(s->ends, s->count, CODE_POINTS));
    CHECK(!bks_set_contains(s->ends, s->count, UINT32_MAX));
}

/* The boundaries are those of a table that has `wanted` of what a and b contain. */
static void joined(int64_t count, const uint32_t *ends, const bool wanted[2][2]) {
    bool held = false;
    int64_t i = 0;
    for (uint32_t c = 0; c <= CODE_POINTS; c++) {
        bool now = c < CODE_POINTS && wanted[a.held[c]][b.held[c]];
        if (now != held) {
            CHECK(i < count && ends[i] == c);
            i++;
        }
        held = now;
    }
    CHECK(i == count);
}

#define JOIN(name, ...)                                                                      \
    do {                                                                                     \
        static const bool wanted[2][2] = __VA_ARGS__;                                        \
        uint32_t *ends = (uint32_t *)before_closed_page(2 * MOST * sizeof(uint32_t));        \
        int64_t n = bks_set_##name(a.ends, a.count, b.ends, b.count, ends, 2 * MOST);        \
        joined(n, ends, wanted);                                                             \
        CHECK((size_t)n <= a.count + b.count);                                               \
    } while (0)

/* The span of a text. */
static void spans(const set_table *s) {
    size_t size, front[2], back[2], count, unit_front[2];
    char *text = text_about(s, &size, front, back);
    uint16_t *units = units_about(s, &count, unit_front);
    for (int held = 0; held < 2; held++) {
        CHECK(bks_set_span(s->ends, s->count, text, size, held) == (int64_t)front[held]);
        CHECK(bks_set_span_back(s->ends, s->count, text, size, held) == (int64_t)back[held]);
        CHECK(bks_set_span_utf16(s->ends, s->count, units, count, held) == unit_front[held]);
    }
#ifdef WITH_ICU
    USet *icu = uset_openEmpty();
    for (size_t i = 0; i < s->count; i += 2)
        uset_addRange(icu, (UChar32)s->ends[i], (UChar32)s->ends[i + 1] - 1);
    CHECK((size_t)uset_spanUTF8(icu, text, (int32_t)size, USET_SPAN_SIMPLE) == front[1]);
    CHECK((size_t)uset_spanUTF8(icu, text, (int32_t)size, USET_SPAN_NOT_CONTAINED) == front[0]);
    CHECK((size_t)uset_spanBackUTF8(icu, text, (int32_t)size, USET_SPAN_SIMPLE) == back[1]);
    CHECK((size_t)uset_spanBackUTF8(icu, text, (int32_t)size, USET_SPAN_NOT_CONTAINED) == back[0]);
    CHECK((size_t)uset_span(icu, (const UChar *)units, (int32_t)count, USET_SPAN_SIMPLE) == unit_front[1]);
    CHECK((size_t)uset_span(icu, (const UChar *)units, (int32_t)count, USET_SPAN_NOT_CONTAINED) == unit_front[0]);
    CHECK(uset_size(icu) == bks_set_size(s->ends, s->count));
    uset_close(icu);
#endif
}

/* Lists that are not sets, and bytes that are not text. */
static void refused(void) {
    static const uint32_t lists[][4] = {
        {1, 2, 3, 3}, {1, 2, 2, 3}, {2, 1, 3, 4}, {1, 2, 3, 0x110001}, {1, 1, 3, 4}, {0, 9, 8, 9}};
    uint32_t ends[4] = {7, 7, 7, 7}, good[2] = {1, 2};
    for (size_t i = 0; i < sizeof lists / sizeof lists[0]; i++) {
        CHECK(!bks_set_test(lists[i], 4));
        CHECK(bks_set_union(lists[i], 4, good, 2, ends, 4) == BKS_INVALID_SET);
        CHECK(bks_set_intersection(good, 2, lists[i], 4, ends, 4) == BKS_INVALID_SET);
        CHECK(bks_set_difference(good, 2, lists[i], 4, ends, 4) == BKS_INVALID_SET);
        CHECK(bks_set_symmetric_difference(lists[i], 4, lists[i], 4, ends, 4) == BKS_INVALID_SET);
        CHECK(bks_set_size(lists[i], 4) == BKS_INVALID_SET);
        int64_t any = bks_set_span(lists[i], 4, "a", 1, true);
        CHECK(any >= 0 && any <= 1 && bks_set_span(lists[i], 4, "\x80", 1, true) == BKS_INVALID_UTF8);
    }
    CHECK(!bks_set_test(good, 1) && bks_set_test(good, 0) && ends[0] == 7 && ends[3] == 7);
    CHECK(bks_set_span(good, 2, "\x80", 1, true) == BKS_INVALID_UTF8);
    CHECK(bks_set_span(good, 2, "\xED\xA0\x80", 3, true) == BKS_INVALID_UTF8);
    CHECK(bks_set_span(good, 2, "\xC0\x80", 2, false) == BKS_INVALID_UTF8);
    CHECK(bks_set_span(good, 2, "", 0, true) == 0);
}

int main(int count, char **words) {
    CHECK(count == 2);
    for (int i = atoi(words[1]); i > 0; i--) {
        make(&a);
        make(&b);
        asks(&a);
        spans(&a);
        JOIN(union, {{false, true}, {true, true}});
        JOIN(intersection, {{false, false}, {false, true}});
        JOIN(difference, {{false, false}, {true, false}});
        JOIN(symmetric_difference, {{false, true}, {true, false}});
    }
    refused();
    printf("%s pairs of sets\n", words[1]);
    return 0;
}
