/* The functions that allocate, with each of their allocations failing in turn, by this program's
   own malloc and realloc (linked with --wrap): the error is returned, the buffer is unchanged, and
   all memory is freed.
   Usage: memory TRIE.. */
#include "parts.h"

void *__real_malloc(size_t size);
void *__real_realloc(void *block, size_t size);
void __real_free(void *block);
void *__wrap_malloc(size_t size);
void *__wrap_realloc(void *block, size_t size);
void __wrap_free(void *block);

static long left = -1, requests, taken;

/* Whether this allocation is the one that has to fail. */
static bool refuses(void) {
    requests++;
    return left >= 0 && left-- == 0;
}

void *__wrap_malloc(size_t size) {
    void *block = refuses() ? NULL : __real_malloc(size);
    taken += block != NULL;
    return block;
}

void *__wrap_realloc(void *block, size_t size) {
    void *moved = refuses() ? NULL : __real_realloc(block, size);
    taken += block == NULL && moved != NULL;
    return moved;
}

void __wrap_free(void *block) {
    taken -= block != NULL;
    __real_free(block);
}

static const uint32_t a[] = {0, 9, 20, 30, 40, 0x110000}, b[] = {5, 25, 0x4E00, 0x5000};
static bks_trie trie;
static _Alignas(16) uint32_t ends[4096];

typedef int64_t (*call)(void);
static int64_t set_of(void) { return bks_trie_set(&trie, called(&trie, 0x41), ends, 4096); }
static int64_t set_of_none(void) { return bks_trie_set(&trie, 0xFFFFFFFE, ends, 4096); }
static int64_t size(void) { return bks_set_size(a, 6); }
static int64_t span(void) { return bks_set_span(a, 6, "\1\2z\t", 4, true); }
static int64_t both(void) { return bks_set_intersection(a, 6, b, 4, ends, 4096); }
static int64_t either(void) { return bks_set_union(a, 6, b, 4, ends, 4096); }
static int64_t without(void) { return bks_set_difference(a, 6, b, 4, ends, 4096); }
static int64_t one_of(void) { return bks_set_symmetric_difference(a, 6, b, 4, ends, 4096); }
static int64_t of_ranges(void) {
    static const bks_interval ranges[] = {{90, 99}, {5, 9}, {20, 30}, {4, 6}, {0x4E00, 0x9FFF}};
    return bks_set_from_ranges(ranges, 5, ends, 4096);
}
static int64_t of_points(void) { return bks_set_from_points(b, 4, ends, 4096); }
static int64_t frozen(void) { return bks_set_freeze(a, 6, (uint64_t *)(void *)ends, 2048); }
static int64_t built(void) {
    static const bks_row rows[] = {{0x41, 0x5A, 1}, {0x4E00, 0x9FFF, 2}, {0x61, 0x20000, 3}};
    return bks_trie_build(rows, 3, 0, 9, BKS_SMALL, 2, ends, sizeof ends);
}
static int64_t units_built(void) {
    static const uint16_t keys[] = {'a', 'b', 'a', 0xD83D, 0xDE00};
    static const size_t lengths[] = {2, 1, 0, 2};
    static const int32_t values[] = {2, 1, 0, -1};
    return bks_units_build(keys, 5, lengths, 4, values, 4, ends, sizeof ends);
}
static const uint8_t units[] = {0x30, 0, 0x61, 0, 0xB0, 0, 0x62, 0, 2, 0x80};
static int64_t counted(void) { return bks_units_count(units, sizeof units); }
static int64_t listed(void) {
    size_t size = 0x77777777;
    int64_t count = bks_units_list(units, sizeof units, (bks_word *)ends, 4, (char *)(ends + 64), 64,
                                   &size);
    CHECK(size == (count < 0 ? 0x77777777 : 3));
    return count;
}

static int64_t texts_built(void) {
    static const size_t lengths[] = {2, 1, 0, 4};
    static const int32_t values[] = {2, 1, 0, -1};
    return bks_units_build_utf8("aba\xF0\x9F\x98\x80", 7, lengths, 4, values, 4, ends, sizeof ends);
}
static int64_t next_units(void) {
    static const bks_cursor root = {0, 0};
    return bks_units_next(units, sizeof units, &root, (uint16_t *)ends, 4);
}
static int64_t unique(void) {
    static const bks_cursor final = {2, 0};
    int32_t value = 0x77777777;
    int64_t one = bks_units_unique(units, sizeof units, &final, &value);
    CHECK(value == 0x77777777 && one <= 0);
    return one;
}
static int64_t listed_below(void) {
    size_t size = 0x77777777;
    int64_t count = bks_units_list_below(units, sizeof units, "a", 1, 0, (bks_word *)ends, 4,
                                         (char *)(ends + 64), 64, &size);
    CHECK(size == (count < 0 ? 0x77777777 : 3));
    return count;
}

/* The number of allocations of the function, each of which failed once. */
static long refused_in_turn(call tried) {
    long before = taken, made;
    requests = 0;
    int64_t wanted = tried();
    made = requests;
    CHECK(wanted >= 0 && taken == before);
    for (long n = 0; n < made; n++) {
        memset(ends, 0x77, sizeof ends);
        left = n;
        CHECK(tried() == BKS_NO_MEMORY && taken == before);
        for (size_t i = 0; i < 4096; i++) CHECK(ends[i] == 0x77777777);
    }
    left = -1;
    CHECK(tried() == wanted && taken == before);
    return made;
}

int main(int count, char **words) {
    static const call calls[] = {set_of, set_of_none, size, span, both, either, without, one_of,
                                 of_ranges, of_points, frozen, built, units_built, counted, listed,
                                 texts_built, next_units, unique, listed_below};
    long made = 0;
    for (int i = 1; i < count; i++) {
        size_t bytes;
        uint8_t *found = file_bytes(words[i], &bytes);
        CHECK(bks_open(&trie, found, bytes) == BKS_OK);
        for (size_t k = 0; k < sizeof calls / sizeof calls[0]; k++)
            made += refused_in_turn(calls[k]);
    }
    CHECK(made > 0);
    printf("%ld requests for memory refused\n", made);
    return 0;
}
