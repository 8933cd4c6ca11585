/* The examples in C of c/README.md, each with the variables that it needs. c/tests/run writes them to files. */
#include "parts.h"

enum { ABC = 3, ROOM = 8192 };
static const char text[] = "Abc \xE6\x97\xA5";         /* 8 bytes, 5 characters */
static const size_t text_size = sizeof text - 1;

static int built(uint8_t *copy, size_t *copied) {
#include "page_5.c"
    CHECK((size_t)size <= bks_trie_bound(3, BKS_SMALL, 1) && size <= ROOM);
    memcpy(copy, bytes, (size_t)size);
    *copied = (size_t)size;
    return 0;
}

static int looked_up(const uint8_t *bytes, size_t size, uint32_t *copy, size_t *copied) {
#include "page_0.c"
    CHECK(category == 1 && found == 5 && taken == text_size && c == 0x65E5);
    CHECK(values[0] == 1 && values[1] == 2 && values[3] == 0 && values[4] == 3);
    CHECK(n == 7 && ranges[1].first == 0x41 && ranges[6].last == 0x10FFFF && count == 2);
    memcpy(copy, ends, 2 * sizeof *ends);
    *copied = (size_t)count;
    return 0;
}

static int frozen(const uint32_t *ends, int64_t count, uint64_t *copy, size_t *copied) {
#include "page_1.c"
    CHECK(held && prefix == 1);
    memcpy(copy, table, (size_t)size * sizeof *table);
    *copied = (size_t)size;
    return 0;
}

static int listed(uint8_t *copy, size_t *copied) {
#include "page_3.c"
    CHECK(count == 2 && words[0].value == 2 && words[1].value == 3 && texts_size == 6);
    CHECK(!memcmp(texts, "carcat", 6));
    memcpy(copy, units, (size_t)size);
    *copied = (size_t)size;
    return 0;
}

static int longest(const uint8_t *units, size_t size) {
    static const char *const text = "category";
    const size_t text_size = 8;
#include "page_2.c"
    CHECK(taken == ABC && value == 3);
    return 0;
}

static int members(const uint64_t *table, size_t words, const uint8_t *units, size_t size) {
    static const char *const text = "catAt";
    const size_t text_size = 5;
#include "page_4.c"
    CHECK(!held && taken == ABC && prefix == 4);
    return 0;
}

int main(void) {
    static uint8_t bytes[ROOM], units[256];
    static uint64_t table[BKS_FROZEN_MOST];
    uint32_t ends[2];
    size_t size, count, words, units_size;
    CHECK(freopen("/dev/null", "w", stdout));
    CHECK(!built(bytes, &size) && !looked_up(bytes, size, ends, &count));
    CHECK(!frozen(ends, (int64_t)count, table, &words) && !listed(units, &units_size));
    CHECK(!longest(units, units_size) && !members(table, words, units, units_size));
    return 0;
}
