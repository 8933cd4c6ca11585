/* Unit tries that are built and listed: worked examples, errors, buffers of all sizes before a
   closed page, and untrusted units.
   Usage: built_units */
#include "parts.h"

enum { STAYS = 77, MOST = 64 };

/* Entries, and the units of their trie in hexadecimal, from the description of the format. */
typedef struct row {
    const char *texts[4]; /* of ASCII */
    int32_t values[4];
    const char *units;
} row;

static const row rows[] = {
    {{"a", "ab"}, {1, 2}, "30 61 B0 62 8002"},
    {{"ab", "a"}, {2, 1}, "30 61 B0 62 8002"},
    {{""}, {7}, "8007"},
    {{"ab"}, {-2}, "31 61 62 FFFF FFFF FFFE"},
    {{0}, {0}, ""},
};

static uint16_t keys[MOST];
static size_t lengths[4];

/* The keys of a row, and their number. */
static size_t keys_of(const row *r, size_t *units) {
    size_t count = 0;
    *units = 0;
    for (; count < 4 && r->texts[count]; count++) {
        lengths[count] = strlen(r->texts[count]);
        for (size_t i = 0; i < lengths[count]; i++)
            keys[(*units)++] = (uint8_t)r->texts[count][i];
    }
    return count;
}

static size_t read_units(const char *said, uint8_t *units) {
    size_t count = 0;
    for (char *next; *said; said = next, count++) {
        unsigned long unit = strtoul(said, &next, 16);
        units[2 * count] = (uint8_t)unit;
        units[2 * count + 1] = (uint8_t)(unit >> 8);
    }
    return 2 * count;
}

/* Builds a row into buffers of all sizes: the units are written if they fit. */
static void is_row(const row *r) {
    size_t units, count = keys_of(r, &units);
    uint8_t wanted[MOST];
    size_t size = read_units(r->units, wanted);
    for (size_t room = 0; room < MOST; room++) {
        uint8_t *bytes = before_closed_page(room);
        memset(bytes, STAYS, room);
        CHECK(bks_units_build(keys, units, lengths, count, r->values, count, bytes, room)
              == (int64_t)size);
        size_t kept = size <= room ? size : 0;
        CHECK(memcmp(bytes, wanted, kept) == 0);
        for (size_t i = kept; i < room; i++) CHECK(bytes[i] == STAYS);
        released(bytes, room);
    }
}

/* Each error, and if there are several causes, the first one. */
static void refused(void) {
    static uint16_t many[70000];
    static const size_t two[] = {1, 1}, three[] = {1, 1, 1}, huge[] = {65536, 1, SIZE_MAX};
    static const size_t longest[] = {65535, 1};
    static const int32_t values[] = {1, 2, 3};
    uint8_t bytes[MOST];
    memset(bytes, STAYS, MOST);
    many[0] = 'a', many[1] = 'b', many[2] = 'a';
    struct {
        size_t units;
        const size_t *lengths;
        size_t count, values;
        int64_t answer;
    } rows[] = {
        {3, two, 2, 3, BKS_INVALID_ENTRIES},     {3, three, 3, 2, BKS_INVALID_ENTRIES},
        {2, three, 3, 3, BKS_INVALID_ENTRIES},   {70000, huge, 3, 3, BKS_INVALID_ENTRIES},
        {65535, huge, 1, 1, BKS_INVALID_ENTRIES}, {3, huge + 2, 1, 1, BKS_INVALID_ENTRIES},
        {3, three, 3, 3, BKS_SAME_KEY},     {70000, huge, 1, 1, BKS_LONG_KEY},
        {70000, huge, 2, 2, BKS_LONG_KEY},
    };
    for (size_t i = 0; i < sizeof rows / sizeof rows[0]; i++)
        CHECK(bks_units_build(many, rows[i].units, rows[i].lengths, rows[i].count, values,
                              rows[i].values, bytes, MOST) == rows[i].answer);
    CHECK(bks_units_build(many, 70000, longest, 2, values, 2, bytes, MOST) > MOST);
    for (size_t i = 0; i < MOST; i++) CHECK(bytes[i] == STAYS);
}

/* The same of keys in UTF-8: the key of an entry is the next bytes, and has to be UTF-8 on its own. */
static void texts_refused(void) {
    static char many[70000];
    static const size_t half[] = {1, 1}, two[] = {2, 1}, huge[] = {65536, 1, 1}, longest[] = {65535, 1};
    static const size_t same[] = {65536, 1, 1, 2};
    static const int32_t values[] = {1, 2, 3, 4};
    uint8_t bytes[MOST];
    memset(bytes, STAYS, MOST), memset(many, 'a', sizeof many);
    struct {
        const char *keys;
        size_t size;
        const size_t *lengths;
        size_t count, values;
        int64_t answer;
    } rows[] = {
        {"\xC3\xA9", 2, half, 2, 2, BKS_INVALID_UTF8}, {"\xC3\xA9", 2, half, 2, 1, BKS_INVALID_ENTRIES},
        {"\xC3\xA9", 1, half, 2, 2, BKS_INVALID_ENTRIES}, {"\xC3\xA9\xFF", 3, two, 1, 1, 6},
        {"\xC3\xA9\xFF", 3, two, 2, 2, BKS_INVALID_UTF8}, {"aa", 2, half, 2, 2, BKS_SAME_KEY},
        {many, sizeof many, huge, 1, 1, BKS_LONG_KEY}, {many, sizeof many, huge, 3, 3, BKS_LONG_KEY},
        {many, sizeof many, same + 1, 3, 3, BKS_SAME_KEY},
    };
    for (size_t i = 0; i < sizeof rows / sizeof rows[0]; i++) {
        int64_t answer = bks_units_build_utf8(rows[i].keys, rows[i].size, rows[i].lengths, rows[i].count,
                                              values, rows[i].values, bytes, rows[i].answer > 0 ? 0 : MOST);
        CHECK(answer == rows[i].answer);
    }
    CHECK(bks_units_build_utf8(many, sizeof many, longest, 2, values, 2, bytes, MOST) > MOST);
    many[65537] = '\xFF'; /* a later key that is not UTF-8 comes before a long one */
    CHECK(bks_units_build_utf8(many, sizeof many, same, 3, values, 3, bytes, MOST) == BKS_INVALID_UTF8);
    memcpy(many, "\xE4\xB8\x96", 3);
    for (size_t i = 0; i < MOST; i++) CHECK(bytes[i] == STAYS);
}

/* A listing: the number of entries, and their texts one after another. */
static int64_t listed(const char *said, bks_word *words, size_t room, char *texts, size_t *size) {
    uint8_t units[MOST * 4];
    size_t n = read_units(said, units);
    uint8_t *moved = before_closed_page(n + 1);
    memcpy(moved, units, n);
    moved[n] = 0x61; /* an odd last byte is no unit */
    int64_t count = bks_units_list(moved, n + 1, words, room, texts, MOST, size);
    int64_t counted = bks_units_count(moved, n + 1);
    CHECK(counted == count || counted == BKS_INVALID_TRIE);
    released(moved, n + 1);
    return count;
}

static void listings(void) {
    bks_word words[4] = {{0, 0, 0}};
    char texts[MOST] = {0};
    size_t size = STAYS;
    CHECK(listed("30 61 B0 62 8002", words, 4, texts, &size) == 2 && size == 3);
    CHECK(memcmp(texts, "aab", 4) == 0 && words[0].start == 0 && words[0].size == 1);
    CHECK(words[0].value == 1 && words[1].start == 1 && words[1].size == 2 && words[1].value == 2);
    CHECK(listed("8007", words, 4, texts, &size) == 1 && size == 0 && words[0].size == 0);
    CHECK(listed("", words, 4, texts, &size) == 0 && size == 0);
    /* a lone surrogate is U+FFFD, a pair its character */
    CHECK(listed("30 D83D B0 DE00 8002", words, 4, texts, &size) == 2 && size == 7);
    CHECK(memcmp(texts, "\xEF\xBF\xBD\xF0\x9F\x98\x80", 7) == 0 && words[1].start == 3);
    /* not tries: a lead unit without the ones it needs, and a value that is cut off */
    CHECK(listed("30", words, 4, texts, &size) == 0 && size == 0);
    CHECK(listed("30 61 FFFF", words, 4, texts, &size) == 1 && words[0].value == 0);
}

/* The number of entries of units. */
static int64_t counted(const char *said) {
    uint8_t units[MOST * 4];
    return bks_units_count(units, read_units(said, units));
}

static void counts(void) {
    CHECK(counted("") == 0 && counted("8007") == 1 && counted("30 61 B0 62 8002") == 2);
    CHECK(counted("30") == BKS_INVALID_TRIE && counted("30 61") == BKS_INVALID_TRIE);
    CHECK(counted("30 61 FFFF") == BKS_INVALID_TRIE && counted("1 62 8001 61 8002") == BKS_INVALID_TRIE);
    CHECK(counted("1 61 8001 62 8002") == 2);
}

/* Levels of four units, both arms of which lead to the next level; at the end a value, or none. */
static int64_t levels(size_t levels, bool has_value) {
    static const uint16_t level[] = {1, 'a', 1, 'b'};
    uint16_t units[4 * 80 + 1];
    for (size_t k = 0; k < levels; k++) memcpy(units + 4 * k, level, sizeof level);
    units[4 * levels] = 0x8005;
    return bks_units_count(units, 8 * levels + (has_value ? 2 : 0));
}

/* Twelve levels of four units, both arms of which lead to the next level: 2^12 entries. */
static void doubled(void) {
    enum { LEVELS = 12 };
    uint16_t units[4 * LEVELS + 1];
    static bks_word words[1 << LEVELS];
    static char texts[LEVELS << LEVELS];
    size_t size;
    for (size_t k = 0; k < LEVELS; k++) {
        static const uint16_t level[] = {1, 'a', 1, 'b'};
        memcpy(units + 4 * k, level, sizeof level);
    }
    units[4 * LEVELS] = 0x8005;
    CHECK(bks_units_list(units, sizeof units, words, 1 << LEVELS, texts, sizeof texts, &size)
          == 1 << LEVELS);
    CHECK(size == sizeof texts && words[1].start == LEVELS && words[1].value == 5);
    CHECK(memcmp(texts + LEVELS, "aaaaaaaaaaab", LEVELS) == 0);
    CHECK(bks_units_count(units, sizeof units) == 1 << LEVELS);
    CHECK(levels(40, true) == (int64_t)1 << 40 && levels(40, false) == BKS_INVALID_TRIE);
    CHECK(levels(62, true) == (int64_t)1 << 62 && levels(63, true) == INT64_MAX);
    CHECK(levels(80, true) == INT64_MAX && levels(80, false) == BKS_INVALID_TRIE);
}

/* Pages below a prefix: a text that does not fit, the last entry, and a trie of 2^60 entries. */
static void pages(void) {
    uint16_t units[4 * 60 + 1];
    bks_word words[3];
    char texts[256];
    size_t size = STAYS;
    uint8_t three[MOST];
    size_t n = read_units("30 61 B0 62 8002", three);
    CHECK(bks_units_list_below(three, n, "a", 1, 0, words, 3, texts, 2, &size) == 1 && size == 3);
    CHECK(bks_units_list_below(three, n, "a", 1, 1, words, 3, texts, 1, &size) == 0 && size == 2);
    CHECK(bks_units_list_below(three, n, "a", 1, 1, words, 3, texts, 2, &size) == 1 && size == 2);
    CHECK(bks_units_list_below(three, n, "a", 1, 0, words, 1, texts, 9, &size) == 1 && size == 1);
    CHECK(bks_units_list_below(three, n, "a", 1, 2, words, 3, texts, 9, &size) == 0 && size == 0);
    CHECK(bks_units_list_below(three, n, "b", 1, 0, words, 3, texts, 9, &size) == 0 && size == 0);
    size = STAYS;
    CHECK(bks_units_list_below(three, n, "\xE4\xB8", 2, 0, words, 3, texts, 9, &size) == BKS_INVALID_UTF8);
    CHECK(size == STAYS);
    for (size_t k = 0; k < 60; k++) {
        static const uint16_t level[] = {1, 'a', 1, 'b'};
        memcpy(units + 4 * k, level, sizeof level);
    }
    units[240] = 0x8005;
    CHECK(bks_units_list_below(units, sizeof units, "ab", 2, 3, words, 3, texts, 256, &size) == 3);
    CHECK(size == 180 && words[2].start == 120 && words[2].size == 60 && words[2].value == 5);
    CHECK(memcmp(texts + 1, "b", 1) == 0 && memcmp(texts + 57, "abb", 3) == 0);
    int32_t value = 0;
    bks_cursor cursor = {0, 0};
    CHECK(bks_units_unique(units, sizeof units, &cursor, &value) == 1 && value == 5);
    /* the same without the value: 2^60 ways that reach no entry */
    CHECK(bks_units_list_below(units, 480, "", 0, 0, words, 3, texts, 256, &size) == 0 && size == 0);
    CHECK(bks_units_unique(units, 480, &cursor, &value) == 0);
}

int main(void) {
    for (size_t i = 0; i < sizeof rows / sizeof rows[0]; i++) is_row(rows + i);
    refused();
    texts_refused();
    pages();
    listings();
    counts();
    doubled();
    printf("%zu rows\n", sizeof rows / sizeof rows[0]);
    return 0;
}
