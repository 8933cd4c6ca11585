/* What the library tolerates: NULL beside a count of 0, a bks_trie of zeros, and *trie that is not
   initialized before bks_trie_open. Usage: nulls TRIE.. */
#include "parts.h"

static const uint32_t none[] = {0}, letters[] = {0x41, 0x5B};

/* A trie of zeros has no value, no range and no set. */
static void zeros(void) {
    bks_trie trie;
    uint32_t value = 77;
    size_t taken;
    memset(&trie, 0, sizeof trie);
    for (uint32_t c = 0; c <= CODE_POINTS; c += 0x100) {
        CHECK(bks_trie8_get(&trie, c) == 0 && bks_trie16_get(&trie, c) == 0 && bks_trie32_get(&trie, c) == 0);
        CHECK(bks_get8(&trie, c) == 0 && bks_get16(&trie, c) == 0 && bks_get32(&trie, c) == 0);
        CHECK(!bks_trie_range(&trie, c).found);
    }
    CHECK(bks_trie_ranges(&trie, 0, NULL, 0) == 0 && !bks_trie_is_coherent(&trie));
    CHECK(bks_trie_set(&trie, 0, NULL, 0) == BKS_INVALID_TRIE);
    CHECK(bks_trie32_get_many(&trie, letters, 2, &value, 1) == 1 && value == 0);
    CHECK(bks_trie32_get_utf8(&trie, "A", 1, &value, 1) == 1 && value == 0);
    value = 77;
    CHECK(bks_trie32_copy_utf8(&trie, "\xFF", 1, &value, 1, &taken) == 1 && value == 0 && taken == 1);
}

/* NULL with a count of 0, for parameters that may have items. */
static void empty_sets(void) {
    uint32_t ends[4];
    uint64_t word;
    CHECK(bks_version() == BKS_VERSION_NUMBER);
    CHECK(bks_set_test(NULL, 0) && !bks_set_contains(NULL, 0, 0) && bks_set_size(NULL, 0) == 0);
    CHECK(bks_set_span(NULL, 0, NULL, 0, true) == 0 && bks_set_span(NULL, 0, "A", 1, false) == 1);
    CHECK(bks_set_span_back(NULL, 0, NULL, 0, true) == 0 && bks_set_span_back(NULL, 0, "A", 1, false) == 0);
    CHECK(bks_set_span_utf16(NULL, 0, NULL, 0, true) == 0 && bks_frozen_span_utf16(NULL, 0, NULL, 0, true) == 0);
    CHECK(bks_frozen_span_back(NULL, 0, NULL, 0, true) == 0 && bks_frozen_span(NULL, 0, "A", 1, false) == 1);
    CHECK(bks_frozen_span_lossy(NULL, 0, NULL, 0, true) == 0 && bks_frozen_span_back_lossy(NULL, 0, NULL, 0, true) == 0);
    CHECK(bks_set_union(NULL, 0, letters, 2, ends, 4) == 2 && bks_set_union(letters, 2, NULL, 0, NULL, 0) == 2);
    CHECK(bks_set_intersection(NULL, 0, letters, 2, NULL, 0) == 0);
    CHECK(bks_set_difference(letters, 2, NULL, 0, NULL, 0) == 2);
    CHECK(bks_set_symmetric_difference(NULL, 0, NULL, 0, NULL, 0) == 0);
    CHECK(bks_set_from_ranges(NULL, 0, NULL, 0) == 0 && bks_set_from_points(NULL, 0, NULL, 0) == 0);
    CHECK(bks_set_from_points(letters, 2, NULL, 0) == 4 && bks_set_complement(NULL, 0, NULL, 0) == 2);
    CHECK(bks_set_complement(NULL, 0, ends, 4) == 2 && ends[0] == 0 && ends[1] == CODE_POINTS);
    CHECK(bks_set_contains_all(NULL, 0, NULL, 0) && bks_set_contains_all(letters, 2, NULL, 0));
    CHECK(!bks_set_contains_all(NULL, 0, letters, 2) && !bks_set_index_of(NULL, 0, 0, ends));
    CHECK(!bks_set_nth(NULL, 0, 0, ends) && ends[0] == 0);
    CHECK(bks_set_freeze(NULL, 0, NULL, 0) == bks_set_freeze(none, 0, &word, 1));
    CHECK(!bks_frozen_contains(NULL, 0, 0x41) && bks_frozen_span(NULL, 0, NULL, 0, true) == 0);
}

static void empty_units(void) {
    int32_t value = 77;
    size_t size = 55;
    bks_cursor cursor = {0, 0};
    CHECK(!bks_units_get(NULL, 0, NULL, 0, &value) && value == 77);
    CHECK(bks_units_longest(NULL, 0, NULL, 0, &value) == BKS_NO_KEY);
    CHECK(bks_units_longest_utf8(NULL, 0, NULL, 0, &value) == BKS_NO_KEY && value == 77);
    CHECK(bks_units_step(NULL, 0, &cursor, 'a') == BKS_NO_MATCH);
    CHECK(!bks_units_value(NULL, 0, &cursor, &value));
    CHECK(bks_units_count(NULL, 0) == bks_units_count(none, 0));
    CHECK(bks_units_list(NULL, 0, NULL, 0, NULL, 0, &size) == 0 && size == 0);
    CHECK(bks_units_build(NULL, 0, NULL, 0, NULL, 0, NULL, 0) == 0);
    CHECK(!bks_units_get_utf8(NULL, 0, NULL, 0, &value) && value == 77);
    CHECK(bks_units_prefixes(NULL, 0, NULL, 0, NULL, 0) == 0);
    CHECK(bks_units_prefixes_utf8(NULL, 0, NULL, 0, NULL, 0) == 0);
    cursor = (bks_cursor){0, 0};
    CHECK(bks_units_next(NULL, 0, &cursor, NULL, 0) == 0);
    CHECK(bks_units_unique(NULL, 0, &cursor, &value) == 0 && value == 77);
    CHECK(bks_units_list_below(NULL, 0, NULL, 0, 0, NULL, 0, NULL, 0, &size) == 0 && size == 0);
    CHECK(bks_units_build_utf8(NULL, 0, NULL, 0, NULL, 0, NULL, 0) == 0);
    CHECK(!bks_text_set_contains(NULL, 0, NULL, 0, NULL, 0) && !bks_text_set_contains(NULL, 0, NULL, 0, "a", 1));
    CHECK(bks_text_set_longest(NULL, 0, NULL, 0, NULL, 0) == 0 && bks_text_set_longest(NULL, 0, NULL, 0, "a", 1) == 0);
    CHECK(bks_text_set_span(NULL, 0, NULL, 0, NULL, 0, true) == 0 && bks_text_set_span(NULL, 0, NULL, 0, "a", 1, false) == 1);
}

/* Opens into memory whose bytes are all the same, whatever they are. */
static void uninitialized(const uint8_t *bytes, size_t size) {
    bks_trie first, trie;
    CHECK(bks_open(&first, bytes, size) == BKS_OK);
    for (int fill = 0; fill < 256; fill += 85) {
        memset(&trie, fill, sizeof trie);
        CHECK(bks_trie_open(bytes, size, &trie) == BKS_OK && trie.size == first.size);
        CHECK(trie.index == first.index && trie.values == first.values && trie.width == first.width);
        CHECK(called(&trie, 0x41) == called(&first, 0x41));
        memset(&trie, fill, sizeof trie);
        CHECK(bks_trie_open(NULL, 0, &trie) == BKS_SHORT && trie.index_size == 0 && trie.fast_limit == 0);
        memset(&trie, fill, sizeof trie);
        CHECK(bks_trie_open(bytes, size - 1, &trie) == BKS_CUT_OFF && bks_get8(&trie, 0x41) == 0);
    }
    CHECK(many(&first, NULL, 0, NULL, 0) == 0 && of_text(&first, NULL, 0, NULL, 0) == 0);
    size_t taken = 77;
    CHECK(copied(&first, NULL, 0, NULL, 0, &taken) == 0 && taken == 0);
    CHECK(of_units(&first, NULL, 0, NULL, 0) == 0 && bks_trie_ranges(&first, 0, NULL, 0) == 0);
    CHECK(bks_trie_set(&first, called(&first, 0x41), NULL, 0) > 0);
}

int main(int argc, char **argv) {
    zeros();
    empty_sets();
    empty_units();
    CHECK(bks_trie_build(NULL, 0, 0, 0, BKS_SMALL, 1, NULL, 0) > 0);
    for (int i = 1; i < argc; i++) {
        size_t size;
        uint8_t *bytes = file_bytes(argv[i], &size);
        uninitialized(bytes, size);
        released(bytes, size);
    }
    printf("%d tries\n", argc - 1);
    return 0;
}
