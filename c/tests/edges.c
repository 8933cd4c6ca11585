/* Functions over a trie, with buffers that are too short, empty or at odd addresses, and over
   bytes that are cut off or damaged. All memory ends before a closed page.
   Usage: edges DAMAGES TRIE.. */
#include "parts.h"

static uint64_t state = 88172645463325252u;

static uint32_t below(uint32_t limit) {
    state ^= state << 13;
    state ^= state >> 7;
    state ^= state << 17;
    return (uint32_t)(state >> 16) % limit;
}

static void is_no_trie(const bks_trie *trie) {
    static uint32_t ends[4];
    bks_range ranges[4];
    CHECK(trie->fast_limit == 0 && trie->index_size == 0 && trie->values_size == 0);
    for (uint32_t c = 0; c <= CODE_POINTS; c += 0x1000) {
        CHECK(bks_get8(trie, c) == 0 && bks_get16(trie, c) == 0 && bks_get32(trie, c) == 0);
        CHECK(!bks_trie_range(trie, c).found && bks_trie_ranges(trie, c, ranges, 4) == 0);
    }
    CHECK(!bks_trie_is_coherent(trie) && bks_trie_set(trie, 0, ends, 4) == BKS_INVALID_TRIE);
}

/* The trie has the same values at each address modulo 8. */
static void odd_addresses(const uint8_t *bytes, size_t size, const bks_trie *trie) {
    uint8_t *room = (uint8_t *)malloc(size + 8);
    for (size_t at = 0; at < 8; at++) {
        bks_trie moved;
        memcpy(room + at, bytes, size);
        CHECK(bks_open(&moved, room + at, size) == BKS_OK && moved.size == trie->size);
        for (uint32_t c = 0; c <= CODE_POINTS; c += 13)
            CHECK(called(&moved, c) == called(trie, c) && in_line(&moved, c) == called(trie, c));
        bks_range range, same = bks_trie_range(trie, 0x3000);
        CHECK(bks_trie_range(&moved, 0x3000).last == same.last);
        CHECK(bks_trie_ranges(&moved, 0x3000, &range, 1) == 1 && same_range(&range, &same));
    }
    free(room);
}

/* Inline look-ups of another width than the trie's return what the functions do, and stay in
   bounds. */
static void other_widths(const uint8_t *bytes, size_t size) {
    uint8_t *last = before_closed_page(size);
    bks_trie trie;
    memcpy(last, bytes, size);
    CHECK(bks_open(&trie, last, size) == BKS_OK);
    for (uint32_t c = 0; c <= CODE_POINTS; c += 7) {
        CHECK(bks_get16(&trie, c) == bks_trie16_get(&trie, c));
        CHECK(bks_get32(&trie, c) == bks_trie32_get(&trie, c));
    }
    released(last, size);
}

/* The ranges from c on, one by one and many at a time, into a buffer of this size. */
static void many_ranges(const bks_trie *trie, uint32_t c, size_t room) {
    size_t size = room * sizeof(bks_range), n, i = 0;
    bks_range *ranges = (bks_range *)before_closed_page(size);
    memset(ranges, 0x55, size);
    n = bks_trie_ranges(trie, c, ranges, room);
    CHECK(n <= room);
    bks_range r = bks_trie_range(trie, c);
    for (; i < n; i++) {
        CHECK(same_range(&ranges[i], &r) && r.found);
        r = bks_trie_range(trie, r.last + 1);
    }
    CHECK(n == room || !r.found);
    for (i = n * sizeof *ranges; i < size; i++) CHECK(((uint8_t *)ranges)[i] == 0x55);
    released(ranges, size);
}

/* Buffers of every size up to the one needed: what fits is written, and nothing else. */
static void short_buffers(const bks_trie *trie) {
    enum { POINTS = 40 };
    static const uint32_t characters[] = {'a', 0xE9, 0x4E16, 'z', 'z', 'z'};
    static uint32_t all[1 << 17];
    uint32_t value = called(trie, 0x41);
    int64_t needed = bks_trie_set(trie, value, all, 1 << 17);
    CHECK(needed > 0 && needed < 1 << 17);
    for (int64_t room = 0; room <= needed; room += room < 8 || room + 9 > needed ? 1 : 251) {
        uint32_t *ends = (uint32_t *)before_closed_page(4 * (size_t)room);
        CHECK(bks_trie_set(trie, value, ends, (size_t)room) == needed);
        CHECK(memcmp(ends, all, 4 * (size_t)room) == 0);
    }
    for (size_t room = 0; room <= POINTS + 2; room++) {
        many_ranges(trie, (uint32_t)room, room);
        many_ranges(trie, CODE_POINTS - (uint32_t)room, room);
        uint8_t *values = before_closed_page(trie->width * room);
        uint32_t *points = (uint32_t *)before_closed_page(4 * POINTS);
        for (size_t i = 0; i < POINTS; i++) points[i] = (uint32_t)i * 0x7531;
        memset(values, 0x55, trie->width * room);
        size_t count = many(trie, points, POINTS, values, room);
        CHECK(count == (room < POINTS ? room : POINTS));
        for (size_t i = 0; i < count; i++)
            CHECK(value_in(trie, values, i) == called(trie, points[i]));
        for (size_t i = trie->width * count; i < trie->width * room; i++)
            CHECK(values[i] == 0x55);
        CHECK(many(trie, points, 0, values, room) == 0);
        char *text = (char *)before_closed_page(9);
        memcpy(text, "a\xC3\xA9\xE4\xB8\x96zzz", 9);
        CHECK(of_text(trie, text, 9, values, room) == 6);
        for (size_t i = 0; i < room && i < 6; i++)
            CHECK(value_in(trie, values, i) == called(trie, characters[i]));
        static const size_t ends_of[] = {0, 1, 3, 6, 7, 8, 9};
        size_t taken = 77, fits = room < 6 ? room : 6;
        memset(values, 0x55, trie->width * room);
        CHECK(copied(trie, text, 9, values, room, &taken) == fits && taken == ends_of[fits]);
        for (size_t i = 0; i < fits; i++)
            CHECK(value_in(trie, values, i) == called(trie, characters[i]));
        for (size_t i = trie->width * fits; i < trie->width * room; i++) CHECK(values[i] == 0x55);
        CHECK(copied(trie, text, 0, values, room, &taken) == 0 && taken == 0);
    }
}

/* The values of a text over any trie, also a damaged one: those of its characters one by one. */
static void along_text(const bks_trie *trie) {
    static const uint32_t some[] = {'a', 'b', 'c', ' ', 0x7F, 'e', 0xE9, 0x4E16, 0x1F600, 'x'};
    static char text[400];
    static uint32_t values[100];
    size_t size = 0, taken;
    for (size_t i = 0; i < 100; i++) size += write_utf8(some[i % 10], text + size);
    CHECK(copied(trie, text, size, values, 100, &taken) == 100 && taken == size);
    for (size_t i = 0; i < 100; i++) CHECK(value_in(trie, values, i) == called(trie, some[i % 10]));
    CHECK(copied(trie, "\xFF", 1, values, 1, &taken) == 1 && taken == 1);
    CHECK(value_in(trie, values, 0) == called(trie, CODE_POINTS));
}

/* Every proper prefix of the bytes is an error. */
static void fronts(const uint8_t *bytes, size_t size) {
    for (size_t n = 0; n < size; n += n < 40 || n + 8 > size ? 1 : 997) {
        uint8_t *front = before_closed_page(n);
        bks_trie trie;
        memcpy(front, bytes, n);
        CHECK(bks_open(&trie, front, n) == (n < 16 ? BKS_SHORT : BKS_CUT_OFF));
        is_no_trie(&trie);
    }
}

/* All functions over a trie of damaged bytes, whatever they return. */
static void ask(const bks_trie *trie) {
    static uint32_t ends[16];
    uint32_t turns = 0, next = 0;
    along_text(trie);
    for (uint32_t c = below(64); c <= CODE_POINTS; c += 61)
        CHECK(called(trie, c) == in_line(trie, c));
    for (bks_range r = bks_trie_range(trie, 0); r.found && turns < 2000; turns++) {
        CHECK(r.first == next && r.last >= r.first && r.last < CODE_POINTS);
        CHECK(r.value == called(trie, r.first));
        next = r.last + 1;
        r = bks_trie_range(trie, next);
    }
    many_ranges(trie, 0, turns);
    many_ranges(trie, next, 3);
    if (bks_trie_is_coherent(trie)) CHECK(turns == 2000 || next == CODE_POINTS);
    CHECK(bks_trie_set(trie, 0, ends, 16) >= 0);
}

/* Changes a few bytes of the trie, mostly of its header or its index. */
static void damage(uint8_t *bytes, size_t size, const uint8_t *whole, uint32_t *seen) {
    bks_trie trie;
    memcpy(bytes, whole, size);
    for (uint32_t n = 1 + below(4); n > 0; n--) {
        uint32_t limit = below(3) ? 16 : below(2) ? 2100 : (uint32_t)size;
        bytes[below(limit < size ? limit : (uint32_t)size)] ^= (uint8_t)(1 + below(255));
    }
    uint32_t status = bks_open(&trie, bytes, size);
    CHECK(status <= BKS_SHORT_DATA);
    seen[status]++;
    if (status == BKS_OK)
        ask(&trie);
    else
        is_no_trie(&trie);
}

int main(int count, char **words) {
    uint32_t seen[BKS_SHORT_DATA + 1] = {0};
    CHECK(count >= 3);
    for (int i = 2; i < count; i++) {
        size_t size;
        uint8_t *bytes = file_bytes(words[i], &size), *copy = before_closed_page(size);
        bks_trie trie;
        CHECK(bks_open(&trie, bytes, size) == BKS_OK);
        other_widths(bytes, size);
        odd_addresses(bytes, size, &trie);
        short_buffers(&trie);
        fronts(bytes, size);
        for (int n = atoi(words[1]); n > 0; n--) damage(copy, size, bytes, seen);
    }
    printf("damaged tries, by what was told of them:");
    for (size_t i = 0; i <= BKS_SHORT_DATA; i++) printf(" %u", seen[i]);
    printf("\n");
    return 0;
}
