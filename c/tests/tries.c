/* Functions over a trie, compared with the runs of its table that another program found, and with
   ICU4C (WITH_ICU): all code points, all ranges, and the set of each value.
   Usage: tries TRIE RUNS ERROR; ERROR is the trie's error value. */
#include "parts.h"
#ifdef WITH_ICU
#include <unicode/ucptrie.h>
#include <unicode/uset.h>
#include <unicode/utf16.h>
#include <unicode/utf8.h>
#endif

static bks_range runs[1 << 17], found[1 << 17];
static uint32_t expected[CODE_POINTS + 16], points[CODE_POINTS + 16], ends[1 << 17];
static uint32_t values[CODE_POINTS + 16];
static char text[4 * CODE_POINTS];

/* Each code point, and numbers above: by the function, inline, and many at a time. */
static void look_ups(const bks_trie *trie, uint32_t error) {
    for (uint32_t c = 0; c < CODE_POINTS + 16; c++) {
        points[c] = c;
        CHECK(called(trie, c) == expected[c] && in_line(trie, c) == expected[c]);
    }
    CHECK(many(trie, points, CODE_POINTS + 16, values, CODE_POINTS + 16) == CODE_POINTS + 16);
    for (uint32_t c = 0; c < CODE_POINTS + 16; c++) CHECK(value_in(trie, values, c) == expected[c]);
    for (uint32_t c = CODE_POINTS; c >= CODE_POINTS; c *= 2)
        CHECK(called(trie, c) == error && in_line(trie, c) == error);
    CHECK(called(trie, UINT32_MAX) == error && in_line(trie, UINT32_MAX) == error);
}

/* For ILL the error value is wanted. */
enum { ILL = CODE_POINTS };

/* The characters of the text and their values, one by one, and what comes after the last. */
static void one_by_one(const bks_trie *trie, const char *bytes, size_t size, const uint32_t *wanted,
                       size_t count) {
    size_t at = 0, done = 0;
    uint32_t c;
    for (; at < size; done++) {
        const uint32_t value = next_of_text(trie, bytes, size, &at, &c);
        CHECK(done < count && at <= size && value == expected[wanted[done]]);
        CHECK(c == (wanted[done] == ILL ? 0xFFFD : wanted[done]));
    }
    CHECK(done == count && next_of_text(trie, bytes, size, &at, &c) == expected[ILL] && at == size && c == 0xFFFD);
    at = SIZE_MAX;
    CHECK(next_of_text(trie, bytes, size, &at, &c) == expected[ILL] && at == SIZE_MAX);
}

/* The text, which may be ill-formed, in pieces for buffers of `room` values. Each value is that of a
   code point, or for ILL the error value. */
static void copied_pieces(const bks_trie *trie, const char *bytes, size_t size,
                          const uint32_t *wanted, size_t count, size_t room) {
    size_t at = 0, done = 0, taken;
    while (at < size) {
        memset(values, 0x55, (room + 1) * trie->width);
        const size_t n = copied(trie, bytes + at, size - at, values, room, &taken);
        CHECK(n > 0 && n <= room && taken >= n && taken <= size - at && done + n <= count);
        CHECK(n == room || taken == size - at);
        for (size_t i = 0; i < n; i++) CHECK(value_in(trie, values, i) == expected[wanted[done + i]]);
        for (size_t i = n * trie->width; i < (room + 1) * trie->width; i++)
            CHECK(((uint8_t *)values)[i] == 0x55);
        at += taken, done += n;
    }
    CHECK(at == size && done == count);
    if (room == 1 || room == count || room > 50) one_by_one(trie, bytes, size, wanted, count);
}

/* All characters in one text, into a buffer for all values, and into one for a few. */
static void texts(const bks_trie *trie) {
    size_t size = 0, count = 0;
    for (uint32_t c = 0; c < CODE_POINTS; c++)
        if (c < 0xD800 || c >= 0xE000) {
            points[count++] = c;
            size += write_utf8(c, text + size);
        }
    CHECK(of_text(trie, text, size, values, count) == (int64_t)count);
    for (size_t i = 0; i < count; i++) CHECK(value_in(trie, values, i) == expected[points[i]]);
    memset(values, 0x55, sizeof values);
    CHECK(of_text(trie, text, size, values, 3) == (int64_t)count);
    CHECK(value_in(trie, values, 2) == expected[2] && ((uint8_t *)values)[3 * trie->width] == 0x55);
    CHECK(of_text(trie, text, 0, values, 3) == 0);
    copied_pieces(trie, text, size, points, count, count);
    copied_pieces(trie, text, size, points, count, 100);
    CHECK(of_text(trie, "ab\xFF", 3, values, 3) == BKS_INVALID_UTF8);
    CHECK(of_text(trie, "\xED\xB0\x80", 3, values, 3) == BKS_INVALID_UTF8);
}

/* Bytes, and how many ill-formed parts these are: tables 3-8 to 3-11 of the Unicode Standard 15,
   the example of its older versions, and sequences that are cut off. A letter is a part too. */
static const struct {
    const char *bytes;
    size_t size;
    const char *parts; /* ? for an ill-formed part */
} ill_formed[] = {
    {"\xC0\xAF\xE0\x80\xBF\xF0\x81\x82\x41", 9, "????????A"},
    {"\xED\xA0\x80\xED\xBF\xBF\xED\xAF\x41", 9, "????????A"},
    {"\xF4\x91\x92\x93\xFF\x41\x80\xBF\x42", 9, "?????A??B"},
    {"\xE1\x80\xE2\xF0\x91\x92\xF1\xBF\x41", 9, "????A"},
    {"\x61\xF1\x80\x80\xE1\x80\xC2\x62\x80\x63\x80\xBF\x64", 13, "a???b?c??d"},
    {"\xC2", 1, "?"},
    {"\xE0\xA0", 2, "?"},
    {"\xE0\x9F", 2, "??"},
    {"\xED\x9F", 2, "?"},
    {"\xF0\x90\x80", 3, "?"},
    {"\xF4\x8F\xBF", 3, "?"},
    {"\xF5\x80\x80\x80", 4, "????"},
};

/* Each of these among 0 to 40 letters before and after it, before a closed page, and by buffers of
   several lengths. */
static void ill_formed_parts(const bks_trie *trie) {
    for (size_t r = 0; r < sizeof ill_formed / sizeof *ill_formed; r++)
        for (size_t before = 0; before <= 40; before += 1 + before / 12)
            for (size_t after = 0; after <= 40; after += 1 + after / 3) {
                const size_t size = before + ill_formed[r].size + after;
                char *bytes = (char *)before_closed_page(size);
                size_t count = 0;
                memset(bytes, 'x', size);
                memcpy(bytes + before, ill_formed[r].bytes, ill_formed[r].size);
                while (count < before) points[count++] = 'x';
                for (const char *part = ill_formed[r].parts; *part; part++)
                    points[count++] = *part == '?' ? ILL : (uint32_t)*part;
                for (size_t i = 0; i < after; i++) points[count++] = 'x';
                for (size_t room = 1; room <= 64; room += 1 + room / 2)
                    copied_pieces(trie, bytes, size, points, count, room);
                released(bytes, size);
            }
}

#ifdef WITH_ICU
/* Damaged texts, by ICU's macro. */
static void damaged(const bks_trie *trie) {
    static const uint32_t below[] = {0x80, 0x80, 0x800, 0x10000, CODE_POINTS};
    uint32_t state = 7;
#define ANY(n) ((state = state * 1664525 + 1013904223) >> 8) % (n)
    for (int turn = 0; turn < 20000; turn++) {
        const size_t parts = ANY(60);
        size_t size = 0, count = 0;
        for (size_t i = 0; i < parts; i++) {
            const uint32_t kind = ANY(5), c = ANY(below[turn % 3 ? kind : 0]);
            size += write_utf8(c >= 0xD800 && c < 0xE000 ? 0x41 : c, text + size);
        }
        for (uint32_t i = ANY(4); size && i > 0; i--) {
            const size_t where = ANY(size);
            text[where] = (char)(ANY(2) ? 0x80 + ANY(0x80) : ANY(0x100));
        }
        for (size_t i = 0; i < size;) {
            UChar32 c;
            U8_NEXT((const uint8_t *)text, i, size, c);
            points[count++] = c < 0 ? ILL : (uint32_t)c;
        }
        copied_pieces(trie, text, size, points, count, 1 + ANY(100));
    }
#undef ANY
}
#endif

/* The next code point of 16-bit units, by ICU if it is there. */
static uint32_t next_point(const uint16_t *units, size_t count, size_t *i) {
#ifdef WITH_ICU
    UChar32 c;
    U16_NEXT(units, *i, count, c);
    return (uint32_t)c;
#else
    uint32_t c = units[(*i)++];
    if (c >> 10 == 0x36 && *i < count && units[*i] >> 10 == 0x37)
        c = 0x10000 + ((c & 0x3FF) << 10 | (units[(*i)++] & 0x3FF));
    return c;
#endif
}

/* These units, into buffers for all values, for a few, and for none. */
static void of_these_units(const bks_trie *trie, const uint16_t *units, size_t n) {
    size_t count = 0;
    for (size_t i = 0; i < n; count++) points[count] = next_point(units, n, &i);
    memset(values, 0x55, sizeof values);
    CHECK(of_units(trie, units, n, values, count) == count);
    for (size_t i = 0; i < count; i++) CHECK(value_in(trie, values, i) == expected[points[i]]);
    CHECK(((uint8_t *)values)[count * trie->width] == 0x55);
    memset(values, 0x55, sizeof values);
    CHECK(of_units(trie, units, n, values, count / 2) == count);
    for (size_t i = 0; i < count / 2; i++) CHECK(value_in(trie, values, i) == expected[points[i]]);
    CHECK(((uint8_t *)values)[count / 2 * trie->width] == 0x55);
    CHECK(of_units(trie, units, n, values, 0) == count);
    size_t at = 0, done = 0;
    uint32_t c;
    for (; at < n; done++) {
        const uint32_t value = next_of_units(trie, units, n, &at, &c);
        CHECK(done < count && at <= n && c == points[done] && value == expected[c]);
    }
    CHECK(done == count && next_of_units(trie, units, n, &at, &c) == expected[ILL] && at == n && c == 0xFFFD);
}

/* All units one after another, all pairs of surrogates, and surrogates in any order. The last one
   is before a closed page. */
static void units(const bks_trie *trie) {
    enum { MOST = 0x200000 };
    static const uint16_t some[] = {0x41, 0xD800, 0xDBFF, 0xDC00, 0xDFFF, 0xFFFF};
    uint16_t *text = (uint16_t *)before_closed_page(MOST * sizeof *text);
    uint32_t state = 1;
    for (uint32_t c = 0; c < 0x10000; c++) text[c] = (uint16_t)c;
    of_these_units(trie, text, 0x10000);
    for (uint32_t c = 0; c < 0x100000; c++) {
        text[2 * c] = (uint16_t)(0xD800 | c >> 10);
        text[2 * c + 1] = (uint16_t)(0xDC00 | (c & 0x3FF));
    }
    of_these_units(trie, text, MOST);
    for (size_t i = 0; i < 0x10000; i++) {
        state = state * 1664525 + 1013904223;
        text[MOST - 0x10000 + i] = some[(state >> 16) % 6];
    }
    text[MOST - 1] = 0xD83D;
    for (size_t n = 0; n < 0x10000; n = 3 * n + 1) of_these_units(trie, text + MOST - n, n);
    released(text, MOST * sizeof *text);
}

/* All ranges from 0 on, and the one from the middle of each. */
static void ranges(const bks_trie *trie, size_t count) {
    bks_range r = bks_trie_range(trie, 0);
    for (size_t i = 0; i < count; i++) {
        CHECK(r.found && r.first == runs[i].first && r.last == runs[i].last);
        CHECK(r.value == runs[i].value);
        uint32_t midst = r.first + (r.last - r.first) / 2;
        bks_range half = bks_trie_range(trie, midst);
        CHECK(half.found && half.first == midst && half.last == r.last && half.value == r.value);
        bks_range both[2];
        CHECK(bks_trie_ranges(trie, midst, both, 2) == (i + 1 < count ? 2 : 1));
        CHECK(same_range(&both[0], &half) && (i + 1 == count || same_range(&both[1], &runs[i + 1])));
        r = bks_trie_range(trie, r.last + 1);
    }
    CHECK(!r.found && r.first == 0 && r.last == 0 && r.value == 0);
    CHECK(!bks_trie_range(trie, UINT32_MAX).found);
}

/* All ranges, `room` at a time, into memory before a closed page. What is behind them is
   unchanged. */
static void many_ranges(const bks_trie *trie, size_t count, size_t room) {
    size_t i = 0, n = room, size = room * sizeof(bks_range);
    bks_range *buffer = (bks_range *)before_closed_page(size);
    for (uint32_t c = 0; n == room; i += n) {
        memset(buffer, 0x55, size);
        n = bks_trie_ranges(trie, c, buffer, room);
        CHECK(n == (count - i < room ? count - i : room));
        for (size_t k = 0; k < n; k++) CHECK(same_range(&buffer[k], &runs[i + k]));
        for (size_t k = n * sizeof *buffer; k < size; k++) CHECK(((uint8_t *)buffer)[k] == 0x55);
        if (n > 0) c = buffer[n - 1].last + 1;
    }
    CHECK(i == count);
    CHECK(bks_trie_ranges(trie, CODE_POINTS, buffer, room) == 0);
    CHECK(bks_trie_ranges(trie, UINT32_MAX, buffer, room) == 0);
    CHECK(bks_trie_ranges(trie, 0, buffer + room, 0) == 0);
    released(buffer, size);
}

/* The set of a value: its boundaries are those of the runs with the value. */
static void set_of(const bks_trie *trie, uint32_t value, size_t count) {
    int64_t n = bks_trie_set(trie, value, ends, 1 << 17);
    size_t i = 0;
    for (size_t k = 0; k < count; k++)
        if (runs[k].value == value) {
            CHECK((int64_t)i + 1 < n);
            CHECK(ends[i] == runs[k].first && ends[i + 1] == runs[k].last + 1);
            i += 2;
        }
    CHECK(n == (int64_t)i && bks_set_test(ends, i));
    for (size_t k = 0; k < count; k++) {
        CHECK(bks_set_contains(ends, i, runs[k].first) == (runs[k].value == value));
        CHECK(bks_set_contains(ends, i, runs[k].last) == (runs[k].value == value));
    }
}

#ifdef WITH_ICU
/* The bytes of all code points, also of surrogates, each followed by those of others cut off: ICU's macro
   goes to the same offsets, with the same values. */
#define AS_MACRO(data)                                                                                   \
    for (size_t at = 0; at < size;) {                                                                    \
        uint32_t value, c;                                                                               \
        const uint32_t own = next_of_text(trie, text, size, &at, &c);                                    \
        UCPTRIE_FAST_U8_NEXT(icu, data, source, limit, value);                                           \
        CHECK(own == value && (const uint8_t *)text + at == source);                                     \
    }                                                                                                    \
    CHECK(source == limit)

static void as_macro(const bks_trie *trie, const UCPTrie *icu) {
    size_t size = 0;
    for (uint32_t c = 0; c < CODE_POINTS; c += c < 0x30000 ? 1 : 61) {
        size += write_utf8(c, text + size);
        if (c % 7 == 0) size += write_utf8(c, text + size) - 1;
    }
    const uint8_t *source = (const uint8_t *)text, *limit = source + size;
    if (trie->width == 1) {
        AS_MACRO(UCPTRIE_8);
    } else if (trie->width == 2) {
        AS_MACRO(UCPTRIE_16);
    } else {
        AS_MACRO(UCPTRIE_32);
    }
}

static void as_icu(const bks_trie *trie, uint8_t *bytes, size_t size) {
    UErrorCode status = U_ZERO_ERROR;
    int32_t taken = 0;
    uint32_t *aligned = (uint32_t *)malloc(size + 4);
    memcpy(aligned, bytes, size);
    UCPTrie *icu = ucptrie_openFromBinary(UCPTRIE_TYPE_ANY, UCPTRIE_VALUE_BITS_ANY, aligned,
                                          (int32_t)size, &taken, &status);
    CHECK(U_SUCCESS(status) && trie->size == (size_t)taken);
    CHECK((ucptrie_getType(icu) == UCPTRIE_TYPE_FAST) == (trie->fast_limit == 0x10000));
    for (uint32_t c = 0; c < CODE_POINTS + 16; c++)
        CHECK(called(trie, c) == ucptrie_get(icu, (UChar32)c));
    size_t n = bks_trie_ranges(trie, 0, found, sizeof found / sizeof found[0]), i = 0;
    for (UChar32 c = 0, last; c < CODE_POINTS; c = last + 1) {
        uint32_t value;
        last = ucptrie_getRange(icu, c, UCPMAP_RANGE_NORMAL, 0, NULL, NULL, &value);
        bks_range r = bks_trie_range(trie, (uint32_t)c);
        CHECK(r.found && r.last == (uint32_t)last && r.value == value);
        CHECK(i < n && same_range(&found[i++], &r));
    }
    CHECK(i == n);
    if (trie->fast_limit == 0x10000) as_macro(trie, icu);
    ucptrie_close(icu);
    free(aligned);
}
#endif

int main(int count, char **words) {
    CHECK(count == 4);
    size_t size, many_runs = read_runs(words[2], runs, sizeof runs / sizeof runs[0]);
    uint8_t *bytes = file_bytes(words[1], &size);
    uint32_t error = (uint32_t)strtoul(words[3], NULL, 0);
    bks_trie trie;
    CHECK(bks_open(&trie, bytes, size) == BKS_OK && trie.size == size);
    CHECK(bks_trie_is_coherent(&trie));
    for (size_t i = 0; i < many_runs; i++)
        for (uint32_t c = runs[i].first; c <= runs[i].last; c++) expected[c] = runs[i].value;
    for (uint32_t c = CODE_POINTS; c < CODE_POINTS + 16; c++) expected[c] = error;
    look_ups(&trie, error);
    texts(&trie);
    ill_formed_parts(&trie);
#ifdef WITH_ICU
    damaged(&trie);
#endif
    units(&trie);
    ranges(&trie, many_runs);
    many_ranges(&trie, many_runs, 1);
    many_ranges(&trie, many_runs, 7);
    many_ranges(&trie, many_runs, many_runs);
    many_ranges(&trie, many_runs, many_runs + 1);
    for (size_t i = 0; i < many_runs && i < 64; i++) set_of(&trie, runs[i].value, many_runs);
    set_of(&trie, 0xFFFFFFFE, many_runs);
#ifdef WITH_ICU
    as_icu(&trie, bytes, size);
#endif
    printf("%s: %u bits, %s, %zu ranges\n", words[1], 8 * trie.width,
           trie.fast_limit == 0x10000 ? "fast" : "small", many_runs);
    return 0;
}
