/* Sets made from ranges, from points and as complements, subsets, and code points by their index,
   compared with tables of a flag for each code point, and with ICU4C (WITH_ICU).
   Usage: made_sets TURNS */
#include "set_tables.h"
#ifdef WITH_ICU
#include <unicode/uset.h>
#endif

enum { ITEMS = 40, ROOM = 2 * ITEMS + 2 };

static set_table a, b;
static bool wanted[CODE_POINTS];

/* The boundaries of a table, and how many there are. */
static size_t ends_of(const bool *held, uint32_t *ends) {
    size_t count = 0;
    bool before = false;
    for (uint32_t c = 0; c <= CODE_POINTS; c++) {
        bool now = c < CODE_POINTS && held[c];
        if (now != before) ends[count++] = c;
        before = now;
    }
    return count;
}

enum source { OF_RANGES, OF_POINTS, OF_ENDS };

static int64_t made(enum source source, const void *items, size_t count, uint32_t *ends,
                    size_t room) {
    if (source == OF_RANGES) return bks_set_from_ranges((const bks_interval *)items, count, ends, room);
    if (source == OF_POINTS) return bks_set_from_points((const uint32_t *)items, count, ends, room);
    return bks_set_complement((const uint32_t *)items, count, ends, room);
}

/* The result has the boundaries of `wanted`, in a buffer of any length. */
static void makes(enum source source, const void *items, size_t count, size_t most) {
    static uint32_t ends[CODE_POINTS + 2];
    size_t needed = ends_of(wanted, ends);
    CHECK(needed <= most);
    for (size_t room = 0; room <= needed + 2; room += room < 4 || room + 2 > needed ? 1 : 5) {
        uint32_t *found = (uint32_t *)before_closed_page(4 * room);
        memset(found, 0x55, 4 * room);
        CHECK(made(source, items, count, found, room) == (int64_t)needed);
        for (size_t i = 0; i < room; i++) CHECK(found[i] == (i < needed ? ends[i] : 0x55555555));
        released(found, 4 * room);
    }
}

static uint32_t any_point(void) {
    static const uint32_t limits[] = {0, 0x10FFFE, 0x10FFFF, 0x110000, 0x7FFFFFFF, UINT32_MAX};
    return below(9) ? below(below(2) ? 300 : CODE_POINTS) : limits[below(6)];
}

/* Ranges in any order, some of them empty or beyond the code space. */
static void from_ranges(void) {
    size_t count = below(ITEMS);
    bks_interval *ranges = (bks_interval *)before_closed_page(count * sizeof *ranges);
    memset(wanted, 0, sizeof wanted);
    for (size_t i = 0; i < count; i++) {
        ranges[i].first = any_point();
        ranges[i].last = below(5) ? ranges[i].first + below(below(2) ? 20 : 0x8000) : any_point();
        for (uint32_t c = ranges[i].first; c <= ranges[i].last && c < CODE_POINTS; c++) wanted[c] = true;
    }
    makes(OF_RANGES, ranges, count, 2 * count);
#ifdef WITH_ICU
    uint32_t ends[ROOM];
    size_t n = (size_t)bks_set_from_ranges(ranges, count, ends, ROOM);
    USet *icu = uset_openEmpty();
    for (size_t i = 0; i < count; i++) {
        uint32_t last = ranges[i].last < CODE_POINTS ? ranges[i].last : CODE_POINTS - 1;
        if (ranges[i].first <= last) uset_addRange(icu, (UChar32)ranges[i].first, (UChar32)last);
    }
    CHECK((size_t)uset_getRangeCount(icu) == n / 2);
    for (size_t i = 0; i < n; i += 2)
        CHECK(uset_containsRange(icu, (UChar32)ends[i], (UChar32)ends[i + 1] - 1));
    uset_close(icu);
#endif
    released(ranges, count * sizeof *ranges);
}

/* Points in any order, some of them twice or beyond the code space. */
static void from_points(void) {
    size_t count = below(ITEMS);
    uint32_t *points = (uint32_t *)before_closed_page(4 * count);
    memset(wanted, 0, sizeof wanted);
    for (size_t i = 0; i < count; i++) {
        points[i] = i > 0 && below(3) == 0 ? points[below((uint32_t)i)] + below(3) : any_point();
        if (points[i] < CODE_POINTS) wanted[points[i]] = true;
    }
    makes(OF_POINTS, points, count, 2 * count);
    released(points, 4 * count);
}

static void complement(const set_table *s) {
    for (uint32_t c = 0; c < CODE_POINTS; c++) wanted[c] = !s->held[c];
    makes(OF_ENDS, s->ends, s->count, s->count + 2);
}

/* The index of each code point at a boundary and of some others, and back. */
static void indices(const set_table *s) {
    uint32_t index = 0, found = 77;
#ifdef WITH_ICU
    USet *icu = uset_openEmpty();
    for (size_t i = 0; i < s->count; i += 2)
        uset_addRange(icu, (UChar32)s->ends[i], (UChar32)s->ends[i + 1] - 1);
#endif
    for (uint32_t c = 0; c < CODE_POINTS; c++) {
        bool border = c == 0 || c + 1 == CODE_POINTS || s->held[c] != s->held[c - 1] || s->held[c] != s->held[c + 1];
        if (border || c % 61 == 0) {
            uint32_t at = 77;
            found = 77;
            CHECK(bks_set_index_of(s->ends, s->count, c, &found) == s->held[c]);
            CHECK(found == (s->held[c] ? index : 77));
            if (s->held[c]) CHECK(bks_set_nth(s->ends, s->count, index, &at) && at == c);
#ifdef WITH_ICU
            CHECK(uset_indexOf(icu, (UChar32)c) == (s->held[c] ? (int32_t)index : -1));
            if (s->held[c]) CHECK(uset_charAt(icu, (int32_t)index) == (UChar32)c);
#endif
        }
        index += s->held[c];
    }
    found = 77;
    CHECK(!bks_set_nth(s->ends, s->count, index, &found) && !bks_set_nth(s->ends, s->count, UINT32_MAX, &found));
    CHECK(!bks_set_index_of(s->ends, s->count, CODE_POINTS, &found));
    CHECK(!bks_set_index_of(s->ends, s->count, UINT32_MAX, &found) && found == 77);
#ifdef WITH_ICU
    uset_close(icu);
#endif
}

/* Each set contains a set exactly if no code point of that one is missing. */
static void subsets(void) {
    uint32_t part[2 * MOST], whole[2 * MOST];
    bool within = true, around = true;
    for (uint32_t c = 0; c < CODE_POINTS; c++) {
        within = within && (!b.held[c] || a.held[c]);
        around = around && (!a.held[c] || b.held[c]);
    }
    CHECK(bks_set_contains_all(a.ends, a.count, b.ends, b.count) == within);
    CHECK(bks_set_contains_all(b.ends, b.count, a.ends, a.count) == around);
    size_t n = (size_t)bks_set_intersection(a.ends, a.count, b.ends, b.count, part, 2 * MOST);
    size_t m = (size_t)bks_set_union(a.ends, a.count, b.ends, b.count, whole, 2 * MOST);
    CHECK(bks_set_contains_all(a.ends, a.count, part, n) && bks_set_contains_all(b.ends, b.count, part, n));
    CHECK(bks_set_contains_all(whole, m, a.ends, a.count) && bks_set_contains_all(whole, m, b.ends, b.count));
    CHECK(bks_set_contains_all(part, n, a.ends, a.count) == around);
    CHECK(bks_set_contains_all(a.ends, a.count, whole, m) == within);
    for (size_t i = 0; i < a.count; i++) { /* one code point more or less */
        uint32_t changed[MOST];
        memcpy(changed, a.ends, sizeof changed);
        changed[i] += i % 2 ? 1 : UINT32_MAX;
        if (!bks_set_test(changed, a.count)) continue;
        CHECK(bks_set_contains_all(changed, a.count, a.ends, a.count));
        CHECK(!bks_set_contains_all(a.ends, a.count, changed, a.count));
    }
}

/* Lists that are not sets: an error, or any result without a read or write outside. */
static void no_sets(void) {
    static const uint32_t sample[] = {0, 1, 5, 9, 9, 4, 0x110000, 0x110001, UINT32_MAX};
    uint32_t left[8], right[8], out[10], found;
    for (int turn = 0; turn < 4000; turn++) {
        size_t n = below(8), m = below(8);
        uint32_t *x = (uint32_t *)before_closed_page(4 * n), *y = (uint32_t *)before_closed_page(4 * m);
        for (size_t i = 0; i < n; i++) x[i] = left[i] = sample[below(9)];
        for (size_t i = 0; i < m; i++) y[i] = right[i] = sample[below(9)];
        bool same = bks_set_contains_all(x, n, y, m);
        CHECK(same == bks_set_contains_all(left, n, right, m));
        bks_set_index_of(x, n, sample[below(9)], &found);
        bks_set_nth(x, n, sample[below(9)], &found);
        memset(out, 0x55, sizeof out);
        int64_t count = bks_set_complement(x, n, out, 10);
        CHECK((count == BKS_INVALID_SET) == !bks_set_test(x, n));
        for (size_t i = count < 0 ? 0 : (size_t)count; i < 10; i++) CHECK(out[i] == 0x55555555);
        released(x, 4 * n);
        released(y, 4 * m);
    }
}

int main(int count, char **words) {
    CHECK(count == 2);
    for (int i = atoi(words[1]); i > 0; i--) {
        make(&a);
        make(&b);
        for (int k = 0; k < 4; k++) from_ranges(), from_points();
        complement(&a);
        indices(&a);
        subsets();
    }
    no_sets();
    printf("%s turns of sets\n", words[1]);
    return 0;
}
