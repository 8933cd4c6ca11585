/* Compares two builds of the library. Each turn makes arguments from a random number, valid and
   damaged ones, calls the same functions of both builds with them, and compares what they return
   and every buffer, byte for byte. Pointers beside a count of 0 may be NULL, a bks_trie may be all
   zeros, and *trie is uninitialized before bks_trie_open.
   Usage: alike A.so B.so TURNS TRIE.. -- UNITS..   CALLS is X(name) for each function of the header. */
#define _GNU_SOURCE
#include "parts.h"
#include <dlfcn.h>

typedef struct {
#define X(name) __typeof__(name) *name;
    CALLS
#undef X
} library;

enum {
#define X(name) NUMBER_##name,
    CALLS
#undef X
    FUNCTIONS,
    MOST = 1 << 22 /* bytes of a file */
};

static const char *const names[] = {
#define X(name) #name,
    CALLS
#undef X
};
static long calls[FUNCTIONS], answers;
static uint8_t logs[2][1 << 23], *out; /* all that a turn gave, of each library */

static void load(library *l, const char *path) {
    void *handle = dlopen(path, RTLD_NOW | RTLD_LOCAL);
    if (!handle) fprintf(stderr, "%s\n", dlerror());
    CHECK(handle);
#define X(name) CHECK(*(void **)&l->name = dlsym(handle, #name));
    CALLS
#undef X
}

static uint64_t state;

/* The next random number below a limit, or of 64 bits if that is 0. */
static uint64_t any(uint64_t below) {
    state ^= state << 13, state ^= state >> 7, state ^= state << 17;
    return below ? (state * 0x2545F4914F6CDD1D >> 20) % below : state;
}

static void put(const void *bytes, size_t size) { memcpy(out, bytes, size), out += size; }
#define PUT(value)                                                                       \
    ({                                                                                   \
        __typeof__(value) put_ = (value);                                                \
        answers++, put(&put_, sizeof put_);                                              \
    })
#define ASK(name, ...) (calls[NUMBER_##name]++, l->name(__VA_ARGS__))
#define FILLED(buffer) memset(buffer, 0x55, sizeof buffer)
/* A pointer beside a count, which is NULL in half of the cases if the count is 0. */
#define SLICE(pointer, count) ((count) || any(2) ? (pointer) : NULL), (count)

static uint32_t point(void) {
    static const uint32_t limits[] = {0,      0x7F,   0xFF,    0xFFF,    0x1000,   0xD7FF,     0xD800,
                                      0xDFFF, 0xFFFF, 0x10000, 0x10FFFF, 0x110000, 0x7FFFFFFF, 0xFFFFFFFF};
    uint64_t kind = any(6);
    return kind == 0 ? limits[any(14)] : (uint32_t)any(kind == 1 ? 0x100 : kind == 2 ? 0x10000 : 0x112000);
}

/* A text in UTF-8 of up to `most` bytes, with one byte changed if it is to be ill-formed. */
static size_t text_of(char *text, size_t most, bool ill) {
    size_t n = 0, count = any(most / 4);
    for (size_t i = 0; i < count; i++) {
        uint32_t c = point() % CODE_POINTS;
        n += write_utf8(c >= 0xD800 && c < 0xE000 ? 0x41 : c, text + n);
    }
    if (ill && n) text[any(n)] = (char)any(256);
    return n;
}

/* The boundaries of a set, or a list that may be none if it is to be damaged. */
static size_t set_of(uint32_t *ends, size_t most, bool damaged) {
    size_t count = 2 * any(most / 2), n = 0;
    uint32_t next = 0, step = any(4) ? CODE_POINTS / (uint32_t)(count + 1) * 2 : 5;
    for (; n < count; n++) {
        next += 1 + (uint32_t)any(step);
        if (next > CODE_POINTS) break;
        ends[n] = next;
    }
    n = n / 2 * 2;
    if (damaged && n) ends[any(n)] = (uint32_t)any(0x110010);
    return n + (damaged && any(3) == 0);
}

/* Opens the bytes as a trie, and in some cases changes its fields afterwards. */
static void opened(const library *l, bks_trie *t, const uint8_t *bytes, size_t size) {
    for (size_t i = 0; i < sizeof *t / 8; i++) ((uint64_t *)t)[i] = any(0);
    PUT(ASK(bks_trie_open, SLICE(bytes, size), t));
    PUT(t->index_size ? (size_t)(t->index - bytes) : 0);
    PUT(t->values_size ? (size_t)(t->values - bytes) : 0);
    PUT(t->index_size), PUT(t->values_size);
    put(&t->size, (size_t)((char *)(&t->shifted12_high_start + 1) - (char *)&t->size));
    if (any(8) == 0) t->high_start = point();
    if (any(8) == 0) t->null_value = (uint32_t)any(256);
    if (any(16) == 0) {
        t->index_size = t->index_size ? any(t->index_size) : 0;
        t->values_size = t->values_size ? any(t->values_size) : 0;
    }
    if (any(16) == 0) t->width = 1u << any(3);
    if (any(32) == 0) memset(t, 0, sizeof *t);
}

static void put_range(bks_range r) { PUT(r.first), PUT(r.last), PUT(r.value), PUT(r.found); }

static void values(const library *l, const bks_trie *t) {
    static uint32_t points[64], cells[256];
    static uint16_t units[128];
    static char text[512];
    for (int i = 0; i < 40; i++) {
        uint32_t c = point();
        PUT(ASK(bks_trie8_get, t, c)), PUT(ASK(bks_trie16_get, t, c)), PUT(ASK(bks_trie32_get, t, c));
        put_range(ASK(bks_trie_range, t, c));
    }
    for (int i = 0; i < 64; i++) points[i] = point();
    for (int i = 0; i < 128; i++) units[i] = (uint16_t)(any(3) ? 0xD800 + any(0x800) : any(0x10000));
    size_t count = any(65), room = any(129), size = text_of(text, sizeof text, any(4) == 0), n;
#define MANY(name, items, count, of)                                                     \
    FILLED(cells), n = count, PUT(ASK(name, t, SLICE(items, n), SLICE((of *)cells, room)));   \
    put(cells, sizeof cells)
#define WIDTH(bits, of)                                                                  \
    MANY(bks_trie##bits##_get_many, points, count, of);                                  \
    MANY(bks_trie##bits##_get_utf8, text, size, of);                                     \
    MANY(bks_trie##bits##_get_utf16, units, any(129), of);                               \
    FILLED(cells), PUT(ASK(bks_trie##bits##_copy_utf8, t, SLICE(text, size),             \
                           SLICE((of *)cells, room), &n));                               \
    PUT(n), put(cells, sizeof cells)
    WIDTH(8, uint8_t);
    WIDTH(16, uint16_t);
    WIDTH(32, uint32_t);
}

static void tries(const library *l, const uint8_t *bytes, size_t size) {
    static uint32_t ends[4096];
    static bks_range ranges[64];
    bks_trie trie, *t = &trie;
    opened(l, t, bytes, size);
    values(l, t);
    PUT(ASK(bks_trie_is_coherent, t)), PUT(ASK(bks_version));
    FILLED(ranges);
    uint32_t c = point();
    size_t room = any(65), found = ASK(bks_trie_ranges, t, c, SLICE(ranges, room));
    PUT(found);
    for (size_t i = 0; i < found; i++) put_range(ranges[i]);
    put(ranges + room, sizeof *ranges * (64 - room));
    FILLED(ends), room = any(4) ? any(4097) : 0, c = (uint32_t)any(40);
    PUT(ASK(bks_trie_set, t, c, SLICE(ends, room)));
    put(ends, sizeof ends);
}

static void made_sets(const library *l, const uint32_t *a, size_t n, const uint32_t *b, size_t m) {
    static bks_interval ranges[80];
    static uint32_t points[80], ends[300];
    size_t count = any(9) ? any(80) : 0, room = any(9) ? any(300) : 0;
    for (size_t i = 0; i < count; i++) {
        points[i] = ranges[i].first = point();
        ranges[i].last = any(9) ? points[i] + (uint32_t)any(any(2) ? 20 : 0x20000) : point();
    }
#define MAKE(name, items, count)                                                         \
    FILLED(ends), PUT(ASK(name, SLICE(items, count), SLICE(ends, room))), put(ends, sizeof ends)
    MAKE(bks_set_from_ranges, ranges, count), MAKE(bks_set_from_points, points, count);
    MAKE(bks_set_complement, a, n);
    PUT(ASK(bks_set_contains_all, SLICE(a, n), SLICE(b, m)));
    for (int i = 0; i < 20; i++) {
        uint32_t found = 77;
        PUT(ASK(bks_set_index_of, SLICE(a, n), point(), &found)), PUT(found);
        PUT(ASK(bks_set_nth, SLICE(a, n), any(5) ? (uint32_t)any(3000) : point(), &found)), PUT(found);
    }
}

static void sets(const library *l) {
    static uint32_t a[256], b[256], ends[600];
    static uint64_t table[BKS_FROZEN_MOST + 8];
    static char text[512];
    static uint16_t units[64];
    size_t n = any(9) ? set_of(a, 250, any(6) == 0) : 0, m = set_of(b, 250, any(6) == 0);
    size_t room = any(9) ? any(600) : 0, size = text_of(text, sizeof text, any(5) == 0);
    bool held = any(2);
    PUT(ASK(bks_set_test, SLICE(a, n))), PUT(ASK(bks_set_size, SLICE(a, n)));
    PUT(ASK(bks_set_span, SLICE(a, n), SLICE(text, size), held));
    PUT(ASK(bks_set_span_back, SLICE(a, n), SLICE(text, size), held));
    for (size_t i = 0; i < 64; i++) units[i] = (uint16_t)(any(4) ? point() : 0xD7F0 + any(0x820));
    size_t count = any(65);
    PUT(ASK(bks_set_span_utf16, SLICE(a, n), SLICE(units, count), held));
    for (int i = 0; i < 30; i++) PUT(ASK(bks_set_contains, a, n, point()));
#define JOIN(name)                                                                       \
    FILLED(ends), PUT(ASK(name, SLICE(a, n), SLICE(b, m), SLICE(ends, room))), put(ends, sizeof ends)
    JOIN(bks_set_union), JOIN(bks_set_intersection);
    JOIN(bks_set_difference), JOIN(bks_set_symmetric_difference);
    made_sets(l, a, n, b, m);
    FILLED(table), room = any(4) ? BKS_FROZEN_MOST : any(5) ? any(3000) : 0;
    PUT(ASK(bks_set_freeze, SLICE(a, n), SLICE(table, room)));
    put(table, sizeof table);
    for (size_t i = any(3) ? 0 : any(50); i > 0; i--) table[any(any(2) ? 40 : 1400)] = any(0);
    room = any(5) ? room : any(2000);
    for (int i = 0; i < 30; i++) PUT(ASK(bks_frozen_contains, SLICE(table, room), point()));
    PUT(ASK(bks_frozen_span, SLICE(table, room), SLICE(text, size), held));
    PUT(ASK(bks_frozen_span_back, SLICE(table, room), SLICE(text, size), held));
    PUT(ASK(bks_frozen_span_lossy, SLICE(table, room), SLICE(text, size), held));
    PUT(ASK(bks_frozen_span_back_lossy, SLICE(table, room), SLICE(text, size), held));
    PUT(ASK(bks_frozen_span_utf16, SLICE(table, room), SLICE(units, count), held));
}

static void keys(const library *l, const uint8_t *bytes, size_t size) {
    static uint16_t key[40];
    static char text[160];
    size_t n = any(40), m = text_of(text, sizeof text, any(6) == 0);
    for (size_t i = 0; i < n; i++)
        key[i] = (uint16_t)(any(3) && size > 4 ? bytes[any(size / 2) * 2] : any(0x10000));
    if (any(2))
        for (size_t i = 0; i < m; i++) text[i] = (char)(0x61 + any(26));
    int32_t value = 77;
    PUT(ASK(bks_units_get, SLICE(bytes, size), SLICE(key, n), &value)), PUT(value);
    PUT(ASK(bks_units_longest, SLICE(bytes, size), SLICE(key, n), &value)), PUT(value);
    PUT(ASK(bks_units_longest_utf8, SLICE(bytes, size), SLICE(text, m), &value)), PUT(value);
    PUT(ASK(bks_units_get_utf8, SLICE(bytes, size), SLICE(text, m), &value)), PUT(value);
    static uint64_t words[1400];
    size_t n_words = any(3) ? 1400 : any(1401);
    FILLED(words);
    for (int i = 0; i < 3; i++) words[any(1400)] = any(0);
    PUT(ASK(bks_text_set_contains, SLICE(words, n_words), SLICE(bytes, size), SLICE(text, m)));
    PUT(ASK(bks_text_set_longest, SLICE(words, n_words), SLICE(bytes, size), SLICE(text, m)));
    PUT(ASK(bks_text_set_span, SLICE(words, n_words), SLICE(bytes, size), SLICE(text, m), any(2)));
    static bks_prefix found[8];
    static uint16_t next[40];
    size_t room = any(9);
    FILLED(found), PUT(ASK(bks_units_prefixes, SLICE(bytes, size), SLICE(key, n), SLICE(found, room)));
    for (int i = 0; i < 8; i++) PUT(found[i].length), PUT(found[i].value);
    FILLED(found), PUT(ASK(bks_units_prefixes_utf8, SLICE(bytes, size), SLICE(text, m), SLICE(found, room)));
    for (int i = 0; i < 8; i++) PUT(found[i].length), PUT(found[i].value);
    bks_cursor cursor = {any(3) ? 0 : any(size + 4), (uint16_t)(any(3) ? 0 : any(300))};
    if (any(20) == 0) cursor.position = any(0);
    room = any(41), FILLED(next);
    PUT(ASK(bks_units_next, SLICE(bytes, size), &cursor, SLICE(next, room))), put(next, sizeof next);
    if (any(4) == 0 || size < 4096) PUT(ASK(bks_units_unique, SLICE(bytes, size), &cursor, &value)), PUT(value);
    for (size_t i = 0; i < n; i++) {
        PUT(ASK(bks_units_step, SLICE(bytes, size), &cursor, key[i]));
        PUT(cursor.position), PUT(cursor.left);
        PUT(ASK(bks_units_value, SLICE(bytes, size), &cursor, &value)), PUT(value);
    }
}

static void units(const library *l, const uint8_t *bytes, size_t size, bool is_short) {
    static char texts[4096];
    static bks_word words[64];
    for (int turn = 0; turn < 10; turn++) keys(l, bytes, size);
    static char prefix[8];
    size_t page = any(65), page_room = any(9) ? any(4097) : 0, used = 55, start = text_of(prefix, 12, any(9) == 0);
    if (any(3) == 0 && size > 1) prefix[0] = (char)bytes[any(size / 2) * 2], start = 1;
    FILLED(words), FILLED(texts);
    PUT(ASK(bks_units_list_below, SLICE(bytes, size), SLICE(prefix, start), any(2) ? 0 : any(is_short ? 0 : 900), SLICE(words, page), SLICE(texts, page_room), &used));
    PUT(used), put(texts, sizeof texts);
    for (int i = 0; i < 64; i++) PUT(words[i].start), PUT(words[i].size), PUT(words[i].value);
    int64_t count = ASK(bks_units_count, SLICE(bytes, size));
    PUT(count);
    if (!is_short && (count < 0 || count > 3000)) return;
    size_t texts_size = 55, room = any(65), texts_room = any(9) ? any(4097) : 0;
    FILLED(words), FILLED(texts);
    PUT(ASK(bks_units_list, SLICE(bytes, size), SLICE(words, room), SLICE(texts, texts_room), &texts_size));
    PUT(texts_size), put(texts, sizeof texts);
    for (int i = 0; i < 64; i++) PUT(words[i].start), PUT(words[i].size), PUT(words[i].value);
}

static void built(const library *l) {
    static bks_row rows[200];
    static uint8_t bytes[1 << 18];
    size_t count = any(9) ? any(200) : 0;
    for (size_t i = 0; i < count; i++) {
        uint32_t first = point(), length = (uint32_t)any(any(2) ? 20 : 0x20000);
        rows[i].first = first, rows[i].last = any(9) ? first + length : point();
        rows[i].value = (uint32_t)any(any(9) ? 200 : 0x20000);
    }
    uint32_t type = (uint32_t)(any(20) ? any(2) : any(5)), width = (uint32_t)(any(20) ? 1u << any(3) : any(9));
    uint32_t other = (uint32_t)any(300), error = (uint32_t)any(300);
    uint64_t bound = ASK(bks_trie_bound, count, type, width);
    PUT(bound), PUT(ASK(bks_trie_bound, any(30000), type, width));
    size_t room = any(8) && bound < sizeof bytes ? bound : any(2) ? any(4000) : 0;
    memset(bytes, 0x55, 4096);
    int64_t size = ASK(bks_trie_build, SLICE(rows, count), other, error, type, width, SLICE(bytes, room));
    PUT(size), put(bytes, size > 0 && (size_t)size <= room ? (size_t)size + 8 : 4096);
}

static void built_units(const library *l) {
    static uint8_t bytes[8192];
    static uint16_t key_units[600];
    static size_t lengths[80];
    static int32_t numbers[80];
    size_t entries = any(9) ? any(80) : 0, used = 0, given, room = any(9) ? any(8192) : 0;
    for (size_t i = 0; i < entries; i++) {
        lengths[i] = any(7), numbers[i] = (int32_t)any(any(2) ? 50 : 0);
        used += lengths[i];
    }
    for (size_t i = 0; i < 600; i++) key_units[i] = (uint16_t)(any(3) ? 0x61 + any(12) : any(0x10000));
    FILLED(bytes);
    if (any(10) == 0) used -= used ? 1 : 0;
    given = any(10) ? entries : any(81);
    int64_t size = ASK(bks_units_build, SLICE(key_units, used), SLICE(lengths, entries),
                       SLICE(numbers, given), SLICE(bytes, room));
    PUT(size), put(bytes, sizeof bytes);
    if (size > 0 && (size_t)size <= room) units(l, bytes, (size_t)size, true);
    static char texts[600];
    used = text_of(texts, sizeof texts, any(9) == 0);
    for (size_t i = 0; i < used; i++)
        if (any(2)) texts[i] = (char)(0x61 + any(12));
    FILLED(bytes);
    size = ASK(bks_units_build_utf8, SLICE(texts, used), SLICE(lengths, entries), SLICE(numbers, given), SLICE(bytes, room));
    PUT(size), put(bytes, sizeof bytes);
}

static uint8_t *files[64], copy[MOST];
static size_t sizes[64], count, tries_count;

/* Copies one of the files from `first` on, damages the copy in some cases, and returns its size. */
static size_t damaged(size_t first, size_t end, bool is_short) {
    size_t which = first + any(end - first), size = sizes[which];
    memcpy(copy, files[which], size);
    if (is_short) size = any(90) < size ? any(90) : size;
    for (size_t i = any(3) ? any(3) : any(40); i > 0 && size; i--)
        copy[any(any(2) && size > 64 ? 64 : size)] = (uint8_t)any(256);
    return any(6) ? size : any(size + 1);
}

/* Whether both libraries give the same in a turn. */
static bool turn(const library libraries[2], uint64_t seed, int *kind) {
    state = seed, *kind = (int)any(4);
    bool is_short = *kind == 2 && any(2);
    size_t size = *kind == 0   ? damaged(0, tries_count, false)
                  : *kind == 2 ? damaged(tries_count, count, is_short)
                               : 0;
    uint64_t start = state;
    size_t used[2];
    for (int i = 0; i < 2; i++) {
        const library *l = &libraries[i];
        state = start, out = logs[i];
        if (*kind == 0) tries(l, copy, size);
        else if (*kind == 1) sets(l);
        else if (*kind == 2) units(l, copy, size, size < 90);
        else built(l), built_units(l);
        used[i] = (size_t)(out - logs[i]);
    }
    return used[0] == used[1] && memcmp(logs[0], logs[1], used[0]) == 0;
}

int main(int argc, char **argv) {
    static library libraries[2];
    static const char *const kinds[] = {"tries", "sets", "units", "building"};
    CHECK(argc > 4);
    load(&libraries[0], argv[1]), load(&libraries[1], argv[2]);
    for (int i = 4; i < argc; i++) {
        if (strcmp(argv[i], "--") == 0) {
            tries_count = count;
            continue;
        }
        CHECK(count < 64);
        files[count] = file_bytes(argv[i], &sizes[count]);
        CHECK(sizes[count++] <= MOST);
    }
    CHECK(0 < tries_count && tries_count < count);
    long turns = atol(argv[3]), different = 0;
    for (long i = 1; i <= turns && different < 20; i++) {
        int kind;
        if (turn(libraries, 0x9E3779B97F4A7C15u * (uint64_t)i, &kind)) continue;
        printf("turn %ld, %s: different\n", i, kinds[kind]);
        different++;
    }
    for (int i = 0; i < FUNCTIONS; i++)
        if (calls[i] == 0) printf("%s is not called\n", names[i]), different++;
    printf("%ld turns, %d functions, %ld answers of each, %ld different\n", turns, FUNCTIONS, answers / 2, different);
    return different != 0;
}
