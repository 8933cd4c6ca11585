/* Functions over unit tries: examples of the format's description and of ICU's builder, at odd
   addresses, cut off and damaged, all before a closed page.
   Usage: unit_tries DAMAGES UNITS..; each UNITS is a file with a trie's units. */
#include "parts.h"

enum { KEY = 16, STAYS = -77777 };

static uint64_t state = 88172645463325252u;

static uint32_t below(uint32_t limit) {
    state ^= state << 13;
    state ^= state >> 7;
    state ^= state << 17;
    return (uint32_t)(state >> 16) % limit;
}

/* Whether a step returns that a key ends, or that one goes on. */
static bool ends(uint32_t told) { return told >= BKS_FINAL_VALUE; }
static bool goes_on(uint32_t told) { return told & 1; }

/* All functions over a text agree with its steps: the value of each prefix, and the longest one
   with a value. Returns what the last step did. */
static uint32_t along(const void *units, size_t size, const uint16_t *text, size_t count) {
    bks_cursor cursor = {0, 0};
    int32_t value = STAYS, found = STAYS, longest = STAYS, empty = STAYS;
    bool has = bks_units_value(units, size, &cursor, &value);
    int64_t most = has ? 0 : BKS_NO_KEY;
    uint32_t told = has ? BKS_INTERMEDIATE_VALUE : BKS_NO_VALUE;
    CHECK(bks_units_get(units, size, text, 0, &empty) == has && empty == value);
    longest = value;
    for (size_t i = 0; i < count; i++) {
        uint32_t before = told;
        told = bks_units_step(units, size, &cursor, text[i]);
        CHECK(told <= BKS_INTERMEDIATE_VALUE);
        CHECK(i == 0 || goes_on(before) || told == BKS_NO_MATCH);
        value = found = STAYS;
        has = bks_units_value(units, size, &cursor, &value);
        CHECK(has == ends(told) && (has || value == STAYS));
        CHECK(bks_units_get(units, size, text, i + 1, &found) == has && found == value);
        if (has) most = (int64_t)i + 1, longest = value;
    }
    found = STAYS;
    CHECK(bks_units_longest(units, size, text, count, &found) == most && found == longest);
    return told;
}

/* What a text in UTF-8 finds: its longest key with the value, and how many keys are prefixes. */
typedef struct match {
    int64_t longest;
    int32_t value;
    int64_t count;
} match;

static const match no_text = {BKS_INVALID_UTF8, STAYS, BKS_INVALID_UTF8};

/* A text in UTF-8, which may be ill-formed, before a closed page. */
static void finds(const void *units, size_t size, const char *text, size_t bytes, match wanted) {
    char *closed = (char *)before_closed_page(bytes);
    bks_prefix found[KEY + 2];
    int32_t value = STAYS;
    memcpy(closed, text, bytes);
    for (size_t i = 0; i < KEY + 2; i++) found[i] = (bks_prefix){77, 77};
    CHECK(bks_units_longest_utf8(units, size, closed, bytes, &value) == wanted.longest);
    CHECK(value == wanted.value);
    CHECK(bks_units_prefixes_utf8(units, size, closed, bytes, found, KEY + 2) == wanted.count);
    size_t count = wanted.count < 0 ? 0 : (size_t)wanted.count;
    CHECK(found[count].length == 77 && found[count].value == 77);
    if (count > 0) CHECK(found[count - 1].length == (size_t)wanted.longest);
    if (count > 0) CHECK(found[count - 1].value == wanted.value);
    released(closed, bytes);
}

/* The same of a text in UTF-8, by its characters, and of some of these before ill-formed bytes. */
static void in_utf8(const void *units, size_t size, const uint32_t *characters, size_t count) {
    static const char *const faults[] = {"\xFF", "\xC3", "\x80z", "\xED\xA0\xBD", "\xF0\x9F\x98"};
    static char text[4 * KEY + 4];
    static uint16_t key[2 * KEY];
    size_t bytes = 0, n = 0, cut = below((uint32_t)count + 1);
    match found = {BKS_NO_KEY, STAYS, 0};
    for (size_t i = 0;; i++) {
        if (bks_units_get(units, size, key, n, &found.value))
            found.longest = (int64_t)bytes, found.count++;
        if (i == cut) {
            const char *fault = faults[below(5)];
            memcpy(text + bytes, fault, strlen(fault));
            finds(units, size, text, bytes + strlen(fault), i == 0 ? no_text : found);
        }
        if (i == count) break;
        uint32_t c = characters[i];
        if (c >= 0x10000) key[n++] = (uint16_t)(0xD7C0 + (c >> 10));
        key[n++] = (uint16_t)(c < 0x10000 ? c : 0xDC00 | (c & 0x3FF));
        bytes += write_utf8(c, text + bytes);
    }
    finds(units, size, text, bytes, found);
}

/* A few texts over any bytes, which follow the units in them. */
static void ask(const uint8_t *units, size_t size) {
    static const uint32_t others[] = {'a', 'b', 'z', 0xE9, 0xFFFF, 0x1F600, 0x10FFFF};
    for (int n = 0; n < 12; n++) {
        uint16_t text[KEY];
        uint32_t characters[KEY];
        for (size_t i = 0; i < KEY; i++) {
            size_t at = size >= 2 ? below((uint32_t)(size / 2)) : 0;
            text[i] = (uint16_t)others[below(5)];
            if (size >= 2 && below(4)) memcpy(text + i, units + 2 * at, 2);
            bool surrogate = text[i] >= 0xD800 && text[i] < 0xE000;
            characters[i] = surrogate ? others[below(7)] : text[i];
        }
        along(units, size, text, KEY);
        in_utf8(units, size, characters, KEY);
        bks_cursor cursor = {below(2) ? below(64) : SIZE_MAX >> below(63), (uint16_t)below(300)};
        int32_t value;
        for (size_t i = 0; i < KEY; i++) {
            bool has = ends(bks_units_step(units, size, &cursor, text[i]));
            CHECK(bks_units_value(units, size, &cursor, &value) == has);
        }
    }
}

/* What a text finds in these units: the result of the last step, and the longest key, both known. */
typedef struct row {
    const char *units;  /* in hexadecimal */
    const char *text;   /* of ASCII */
    uint32_t told;
    int64_t longest;
    int32_t value;
} row;

#define SIX_BY_ICU                                                                         \
    "5 64 19 64 A 65 E 66 7FF0 FFFF FFFF 7A FFFF 8000 0 7FB0 FFFF 7A FFFF 3FFF 0 7FF0 FE 0" \
    " 7A FFFF FFFF FFFF 61 8 62 9 63 4070 100 7A FFFE FFFF 70 7A BFFF 4030 7A C000 4000"

static const row rows[] = {
    {"30 61 B0 62 8064", "ab", BKS_FINAL_VALUE, 2, 100},
    {"30 61 B0 62 8064", "a", BKS_INTERMEDIATE_VALUE, 1, 1},
    {"30 61 B0 62 8064", "ac", BKS_NO_MATCH, 1, 1},
    {"30 61 B0 62 8064", "b", BKS_NO_MATCH, BKS_NO_KEY, STAYS},
    {"31 61 62 8003", "a", BKS_NO_VALUE, BKS_NO_KEY, STAYS},
    {"31 61 62 8003", "abc", BKS_NO_MATCH, 2, 3},
    {"8007", "", BKS_INTERMEDIATE_VALUE, 0, 7},
    {"8007", "a", BKS_NO_MATCH, 0, 7},
    {"FFFF FFFF FFFE", "", BKS_INTERMEDIATE_VALUE, 0, -2},
    {"1 61 2 62 8002 8001", "a", BKS_FINAL_VALUE, 1, 1},
    {"1 61 2 62 8002 8001", "b", BKS_FINAL_VALUE, 1, 2},
    {SIX_BY_ICU, "a", BKS_INTERMEDIATE_VALUE, 1, 0},
    {SIX_BY_ICU, "az", BKS_FINAL_VALUE, 2, 16383},
    {SIX_BY_ICU, "cz", BKS_FINAL_VALUE, 2, 1073676287},
    {SIX_BY_ICU, "dz", BKS_FINAL_VALUE, 2, 1073676288},
    {SIX_BY_ICU, "ezz", BKS_NO_MATCH, 2, -1},
    {SIX_BY_ICU, "fz", BKS_FINAL_VALUE, 2, INT32_MIN},
    {SIX_BY_ICU, "fy", BKS_NO_MATCH, 1, -1},
    /* not tries: a missing lead unit, a missing length, and a jump past the end */
    {"", "a", BKS_NO_MATCH, BKS_NO_KEY, STAYS},
    {"30", "a", BKS_NO_MATCH, BKS_NO_KEY, STAYS},
    {"0", "a", BKS_NO_MATCH, BKS_NO_KEY, STAYS},
    {"30 61 FFFF", "a", BKS_FINAL_VALUE, 1, 0},
    {"1 61 3FFF 62 8002", "a", BKS_NO_MATCH, BKS_NO_KEY, STAYS},
    {"1 61 3FFF 62 8002", "b", BKS_FINAL_VALUE, 1, 2},
};

/* The units of a row, and their number. */
static size_t read_units(const char *said, uint8_t *units) {
    size_t count = 0;
    for (char *next; *said; said = next, count++) {
        unsigned long unit = strtoul(said, &next, 16);
        units[2 * count] = (uint8_t)unit;
        units[2 * count + 1] = (uint8_t)(unit >> 8);
    }
    return count;
}

/* A row, at an even and at an odd address, and with a byte after its units. */
static void is_row(const row *r) {
    uint8_t units[256];
    uint16_t text[KEY] = {0};
    size_t size = 2 * read_units(r->units, units), count = strlen(r->text);
    for (size_t i = 0; i < count; i++) text[i] = (uint8_t)r->text[i];
    for (size_t odd = 0; odd < 2; odd++) {
        uint8_t *moved = before_closed_page(size + odd);
        int32_t value = STAYS, in_text = STAYS;
        memcpy(moved, units, size);
        if (odd) moved[size] = 0x61;
        CHECK(along(moved, size + odd, text, count) == r->told);
        CHECK(bks_units_longest(moved, size + odd, text, count, &value) == r->longest);
        CHECK(bks_units_longest_utf8(moved, size + odd, r->text, count, &in_text) == r->longest);
        CHECK(value == r->value && in_text == r->value);
        released(moved, size + odd);
    }
}

/* A key that ends within a character: "\u{1f600}" is 2, its lead surrogate alone 1. */
static void within_a_character(void) {
    uint8_t units[16];
    static const uint16_t text[] = {0xD83D, 0xDE00, 0xD83D, 0xDE01};
    size_t size = 2 * read_units("30 D83D B0 DE00 8002", units);
    int32_t value = STAYS;
    CHECK(bks_units_longest(units, size, text, 2, &value) == 2 && value == 2);
    CHECK(bks_units_longest(units, size, text + 2, 2, &value) == 1 && value == 1);
    CHECK(bks_units_longest_utf8(units, size, "\xF0\x9F\x98\x80!", 5, &value) == 4 && value == 2);
    value = STAYS;
    CHECK(bks_units_longest_utf8(units, size, "\xF0\x9F\x98\x81", 4, &value) == BKS_NO_KEY);
    CHECK(value == STAYS);
}

/* Texts that are ill-formed somewhere: in a trie of "a" and "ab", in one of the empty key, and in
   none. What follows the keys does not matter. */
static void ill_formed(void) {
    static const struct {
        const char *units, *text;
        match found;
    } texts[] = {
        {"30 61 B0 62 8064", "a\xFF", {1, 1, 1}},
        {"30 61 B0 62 8064", "a\xFF" "b", {1, 1, 1}},
        {"30 61 B0 62 8064", "a\xC3", {1, 1, 1}},
        {"30 61 B0 62 8064", "ab\xE2\x82", {2, 100, 2}},
        {"30 61 B0 62 8064", "abc\xF0\x9F\x98", {2, 100, 2}},
        {"30 61 B0 62 8064", "b\xFF", {BKS_NO_KEY, STAYS, 0}},
        {"30 61 B0 62 8064", "\xFF" "ab", {BKS_INVALID_UTF8, STAYS, BKS_INVALID_UTF8}},
        {"30 61 B0 62 8064", "\x80", {BKS_INVALID_UTF8, STAYS, BKS_INVALID_UTF8}},
        {"30 61 B0 62 8064", "\xC3", {BKS_INVALID_UTF8, STAYS, BKS_INVALID_UTF8}},
        {"30 61 B0 62 8064", "\xED\xA0\xBD", {BKS_INVALID_UTF8, STAYS, BKS_INVALID_UTF8}},
        {"8007", "a\xFF", {0, 7, 1}},
        {"8007", "\xFF", {BKS_INVALID_UTF8, STAYS, BKS_INVALID_UTF8}},
        {"", "a\xFF", {BKS_NO_KEY, STAYS, 0}},
        {"", "\xFF", {BKS_INVALID_UTF8, STAYS, BKS_INVALID_UTF8}},
    };
    for (size_t i = 0; i < sizeof texts / sizeof texts[0]; i++) {
        uint8_t units[16];
        size_t size = 2 * read_units(texts[i].units, units);
        finds(units, size, texts[i].text, strlen(texts[i].text), texts[i].found);
    }
}

/* The keys at each position of a long text, whose last byte is ill-formed. If each call read all of
   the text, this would take a minute. */
static void at_each_position(void) {
    enum { LONG = 1 << 20 };
    static char text[LONG];
    uint8_t units[16];
    size_t size = 2 * read_units("30 61 B0 62 8064", units);
    for (size_t i = 0; i < LONG; i++) text[i] = (char)('a' + i % 3);
    text[LONG - 1] = '\xFF';
    for (size_t i = 0; i < LONG; i++) {
        int32_t value = STAYS;
        int64_t longest = bks_units_longest_utf8(units, size, text + i, LONG - i, &value);
        int64_t count = bks_units_prefixes_utf8(units, size, text + i, LONG - i, NULL, 0);
        if (i == LONG - 1) CHECK(longest == BKS_INVALID_UTF8 && count == BKS_INVALID_UTF8);
        else if (i % 3 > 0) CHECK(longest == BKS_NO_KEY && count == 0);
        else CHECK(longest == 2 && value == 100 && count == 2);
    }
}

/* Prefixes of the bytes, and bytes of which a few are changed. */
static void broken(const uint8_t *units, size_t size, int damages) {
    uint8_t *copy = before_closed_page(size);
    for (size_t n = 0; n < size; n += n < 100 || n + 20 > size ? 1 : 997) {
        uint8_t *front = before_closed_page(n);
        memcpy(front, units, n);
        ask(front, n);
        released(front, n);
    }
    for (int n = 0; n < damages; n++) {
        memcpy(copy, units, size);
        for (uint32_t k = 1 + below(4); k > 0 && size > 0; k--) {
            size_t limit = below(2) && size > 80 ? 80 : size;
            copy[below((uint32_t)limit)] ^= (uint8_t)(1 + below(255));
        }
        ask(copy, size);
    }
    released(copy, size);
}

int main(int count, char **words) {
    CHECK(count >= 2);
    for (size_t i = 0; i < sizeof rows / sizeof rows[0]; i++) {
        uint8_t units[256];
        is_row(rows + i);
        broken(units, 2 * read_units(rows[i].units, units), 20);
    }
    within_a_character();
    ill_formed();
    at_each_position();
    for (int i = 2; i < count; i++) {
        size_t size;
        uint8_t *units = file_bytes(words[i], &size);
        ask(units, size);
        broken(units, size, atoi(words[1]));
    }
    printf("%zu rows, %d tries damaged\n", sizeof rows / sizeof rows[0], count - 2);
    return 0;
}
