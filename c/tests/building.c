/* Tries that are built of rows. Each code point has the value of the last row that contains it: in
   the trie that the library opens of the bytes, and with ICU4C (WITH_ICU) also in the tries that
   ICU opens of them and builds of the same rows. Buffers that are too short are unchanged, no trie
   is larger than its bound, and each error is returned.
   Usage: building TURNS RUNS.. */
#include "parts.h"
#ifdef WITH_ICU
#include <unicode/ucptrie.h>
#include <unicode/umutablecptrie.h>
#endif

enum { ROWS = 1 << 17, NONE = 7, WRONG = 9 };

static const uint32_t widths[] = {1, 2, 4};
static bks_row rows[CODE_POINTS];
static bks_range runs[ROWS];
static uint32_t expected[CODE_POINTS];
static uint64_t state = 88172645463325252u;

static uint32_t below(uint32_t limit) {
    state ^= state << 13;
    state ^= state >> 7;
    state ^= state << 17;
    return (uint32_t)(state >> 16) % limit;
}

/* Computes the expected value of each code point. */
static void expect(size_t count) {
    for (uint32_t c = 0; c < CODE_POINTS; c++) expected[c] = NONE;
    for (size_t i = 0; i < count; i++)
        for (uint64_t c = rows[i].first; c <= rows[i].last && c < CODE_POINTS; c++)
            if (rows[i].first < CODE_POINTS) expected[c] = rows[i].value;
}

#ifdef WITH_ICU
static UCPTrie *built_by_icu(size_t count, uint32_t type, uint32_t width) {
    UErrorCode status = U_ZERO_ERROR;
    UMutableCPTrie *map = umutablecptrie_open(NONE, WRONG, &status);
    for (size_t i = 0; i < count; i++) {
        uint32_t last = rows[i].last < CODE_POINTS ? rows[i].last : CODE_POINTS - 1;
        if (rows[i].first <= last)
            umutablecptrie_setRange(map, (UChar32)rows[i].first, (UChar32)last, rows[i].value,
                                    &status);
    }
    UCPTrie *trie = umutablecptrie_buildImmutable(
        map, type == BKS_FAST ? UCPTRIE_TYPE_FAST : UCPTRIE_TYPE_SMALL,
        width == 1   ? UCPTRIE_VALUE_BITS_8
        : width == 2 ? UCPTRIE_VALUE_BITS_16
                     : UCPTRIE_VALUE_BITS_32,
        &status);
    CHECK(U_SUCCESS(status));
    umutablecptrie_close(map);
    return trie;
}

/* ICU opens the bytes, and gets the same values from them as from the trie that it builds. */
static void as_icu(const uint8_t *bytes, size_t size, size_t count, uint32_t type, uint32_t width) {
    UErrorCode status = U_ZERO_ERROR;
    int32_t taken = 0;
    uint32_t *aligned = (uint32_t *)malloc(size + 4);
    memcpy(aligned, bytes, size);
    UCPTrie *opened = ucptrie_openFromBinary(
        type == BKS_FAST ? UCPTRIE_TYPE_FAST : UCPTRIE_TYPE_SMALL, UCPTRIE_VALUE_BITS_ANY, aligned,
        (int32_t)size, &taken, &status);
    CHECK(U_SUCCESS(status) && (size_t)taken == size);
    UCPTrie *built = built_by_icu(count, type, width);
    for (UChar32 c = 0; c < CODE_POINTS + 16; c++) {
        uint32_t value = c < CODE_POINTS ? expected[c] : WRONG;
        CHECK(ucptrie_get(opened, c) == value && ucptrie_get(built, c) == value);
    }
    for (UChar32 c = 0, last; c < CODE_POINTS; c = last + 1) {
        uint32_t value, other;
        last = ucptrie_getRange(built, c, UCPMAP_RANGE_NORMAL, 0, NULL, NULL, &value);
        CHECK(ucptrie_getRange(opened, c, UCPMAP_RANGE_NORMAL, 0, NULL, NULL, &other) == last);
        CHECK(other == value);
    }
    ucptrie_close(built);
    ucptrie_close(opened);
    free(aligned);
}
#endif

/* Builds the trie of the rows, first into a buffer that is too short. */
static uint8_t *built(size_t count, uint32_t type, uint32_t width, size_t *size) {
    uint8_t none = 0x55;
    int64_t n = bks_trie_build(rows, count, NONE, WRONG, type, width, &none, 0);
    CHECK(n > 0 && none == 0x55);
    CHECK((uint64_t)n <= bks_trie_bound(count, type, width));
    uint8_t *bytes = before_closed_page((size_t)n), *more = (uint8_t *)malloc((size_t)n + 9);
    memset(bytes, 0x55, (size_t)n);
    memset(more, 0x55, (size_t)n + 9);
    CHECK(bks_trie_build(rows, count, NONE, WRONG, type, width, bytes, (size_t)n - 1) == n);
    for (int64_t i = 0; i < n; i++) CHECK(bytes[i] == 0x55);
    CHECK(bks_trie_build(rows, count, NONE, WRONG, type, width, bytes, (size_t)n) == n);
    CHECK(bks_trie_build(rows, count, NONE, WRONG, type, width, more + 1, (size_t)n + 7) == n);
    CHECK(memcmp(bytes, more + 1, (size_t)n) == 0 && more[0] == 0x55);
    for (int64_t i = n + 1; i < n + 9; i++) CHECK(more[i] == 0x55);
    free(more);
    *size = (size_t)n;
    return bytes;
}

/* Builds the trie of the rows in each type and each width that fits their values. */
static void each_form(size_t count, uint32_t largest) {
    expect(count);
    for (uint32_t type = BKS_FAST; type <= BKS_SMALL; type++)
        for (size_t i = 0; i < 3; i++) {
            size_t size;
            bks_trie trie;
            if (widths[i] < 4 && largest >> (8 * widths[i])) continue;
            uint8_t *bytes = built(count, type, widths[i], &size);
            CHECK(bks_open(&trie, bytes, size) == BKS_OK && trie.size == size);
            CHECK(trie.width == widths[i] && bks_trie_is_coherent(&trie));
            CHECK(trie.fast_limit == (type == BKS_FAST ? 0x10000u : 0x1000u));
            for (uint32_t c = 0; c < CODE_POINTS; c++)
                CHECK(called(&trie, c) == expected[c] && in_line(&trie, c) == expected[c]);
            CHECK(called(&trie, CODE_POINTS) == WRONG && called(&trie, UINT32_MAX) == WRONG);
#ifdef WITH_ICU
            as_icu(bytes, size, count, type, widths[i]);
#endif
        }
}

/* Rows that overlap, are reversed, or are above 0x10FFFF. */
static size_t random_rows(uint32_t largest) {
    size_t count = below(300);
    for (size_t i = 0; i < count; i++) {
        rows[i].first = below(8) ? below(CODE_POINTS) : below(0x3000);
        rows[i].last = rows[i].first + below(below(4) ? 600 : 0x20000);
        rows[i].value = below(4) ? below(5) : below(largest) + 1;
        if (below(16) == 0) rows[i].last = rows[i].first - below(rows[i].first + 1);
        if (below(16) == 0) rows[i].last = UINT32_MAX;
        if (below(16) == 0) rows[i].first = CODE_POINTS + below(2);
    }
    return count;
}

/* The bound on sizes, calculated by hand: for no row, for few rows, and for so many that all
   blocks of the code space differ. It never falls as rows are added, and is 0 for an unknown type
   or width. */
static void bounds(void) {
    const uint64_t none[2][3] = {{6730, 6970, 7450}, {6730, 6970, 7450}};
    const uint64_t most[2][3] = {{1268146, 2382418, 4610962}, {1276786, 2391058, 4619602}};
    for (uint32_t type = BKS_FAST; type <= BKS_SMALL; type++)
        for (size_t i = 0; i < 3; i++) {
            uint64_t before = 0;
            for (size_t count = 0; count < 30000; count++) {
                uint64_t bound = bks_trie_bound(count, type, widths[i]);
                CHECK(before <= bound && bound <= most[type][i]);
                before = bound;
            }
            CHECK(bks_trie_bound(0, type, widths[i]) == none[type][i]);
            CHECK(before == most[type][i]);
            CHECK(bks_trie_bound(SIZE_MAX, type, widths[i]) == before);
            CHECK(bks_trie_bound(SIZE_MAX / 3 + 1, type, widths[i]) == before);
        }
    CHECK(bks_trie_bound(1, BKS_FAST, 1) == 16 + 2 * 3345 + 64 * 4 + 16 * 4 + 160);
    CHECK(bks_trie_bound(100, BKS_SMALL, 4) == 16 + 2 * 14037 + 4 * (64 * 64 + 16 * 301 + 160));
    for (uint32_t width = 0; width < 9; width++)
        for (uint32_t type = 0; type < 4; type++) {
            bool known = type < 2 && (width == 1 || width == 2 || width == 4);
            CHECK((bks_trie_bound(3, type, width) != 0) == known);
        }
    CHECK(bks_trie_bound(3, BKS_FAST, UINT32_MAX) == 0 && bks_trie_bound(3, UINT32_MAX, 1) == 0);
}

/* Each error, and if there are several causes, the first one. */
static void refusals(void) {
    uint8_t bytes[64];
    memset(bytes, 0x55, sizeof bytes);
    const bks_row wide = {0x41, 0x40, 0x100};
    for (uint32_t width = 0; width < 9; width++)
        for (uint32_t type = 0; type < 4; type++) {
            bool known = type < 2 && (width == 1 || width == 2 || width == 4);
            int64_t refused = !known ? BKS_INVALID_FORMAT : width == 1 ? BKS_WIDE_VALUE : 0;
            int64_t row = bks_trie_build(&wide, 1, 0, 0, type, width, bytes, sizeof bytes);
            int64_t none = bks_trie_build(&wide, 0, 0x100, 0, type, width, bytes, sizeof bytes);
            int64_t error = bks_trie_build(&wide, 0, 0, 0x100, type, width, bytes, sizeof bytes);
            CHECK(refused ? row == refused && none == refused && error == refused
                          : row > 64 && none > 64 && error > 64);
            for (size_t i = 0; i < sizeof bytes; i++) CHECK(bytes[i] == 0x55);
        }
    CHECK(bks_trie_build(&wide, 0, 0xFFFF, 0xFFFF, BKS_FAST, 2, bytes, 0) > 0);
    CHECK(bks_trie_build(&wide, 0, 0x10000, 0, BKS_FAST, 2, bytes, 0) == BKS_WIDE_VALUE);
    CHECK(bks_trie_build(&wide, 0, UINT32_MAX, UINT32_MAX, BKS_SMALL, 4, bytes, 0) > 0);
    CHECK(bks_trie_build(&wide, 0, 0, 0, UINT32_MAX, UINT32_MAX, bytes, 0) == BKS_INVALID_FORMAT);
    for (uint32_t c = 0; c < CODE_POINTS; c++) {
        rows[c].first = rows[c].last = c;
        rows[c].value = c;
    }
    CHECK(bks_trie_build(rows, CODE_POINTS, 0, 0, BKS_FAST, 4, bytes, 64) == BKS_TOO_LARGE);
    CHECK(bks_trie_build(rows, CODE_POINTS, 0, 0, BKS_SMALL, 4, bytes, 64) == BKS_TOO_LARGE);
    CHECK(bks_trie_build(rows, CODE_POINTS, 0, 0, BKS_SMALL, 2, bytes, 64) == BKS_WIDE_VALUE);
    for (size_t i = 0; i < sizeof bytes; i++) CHECK(bytes[i] == 0x55);
}

int main(int count, char **words) {
    CHECK(count >= 3);
    refusals();
    bounds();
    each_form(0, 0);
    for (int turn = 0; turn < atoi(words[1]); turn++) {
        uint32_t largest = turn % 3 == 0 ? 0xFF : turn % 3 == 1 ? 0xFFFF : 0xFFFFFFFE;
        each_form(random_rows(largest), largest);
    }
    for (int i = 2; i < count; i++) {
        size_t many_runs = read_runs(words[i], runs, ROWS);
        uint32_t largest = 0;
        for (size_t k = 0; k < many_runs; k++) {
            rows[k].first = runs[k].first;
            rows[k].last = runs[k].last;
            rows[k].value = runs[k].value;
            largest = runs[k].value > largest ? runs[k].value : largest;
        }
        each_form(many_runs, largest);
    }
    printf("tries of %s lists of rows, and of %d tables\n", words[1], count - 2);
    return 0;
}
