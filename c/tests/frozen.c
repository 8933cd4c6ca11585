/* Frozen sets, compared with tables of a flag for each code point, and with ICU4C (WITH_ICU);
   buffers of all kinds, and words that bks_set_freeze did not write.
   Usage: frozen SETS DAMAGES */
#include "set_tables.h"
#ifdef WITH_ICU
#include <unicode/uset.h>
#endif

static set_table a;
static uint64_t room[BKS_FROZEN_MOST + 8];

/* What the header says about any words, read one by one. */
static bool said(const uint64_t *table, size_t count, uint32_t c) {
    size_t words = count > 0 ? table[0] & 0xFFFFFFFF : 0, last = words > 0 ? words - 1 : 0;
    size_t block = c / 1024 < last ? c / 1024 : last;
    size_t offset = block < count ? table[block] & 0xFFFFFFFF : 0;
    size_t at = offset + c / 64 % 16;
    return c < CODE_POINTS && at < count && (table[at] >> c % 64 & 1) != 0;
}

/* How many words a set takes: offsets up to the one after the block of the last boundary below
   0x110000; the words of the first block, the empty one and the full one; and those of each other
   block with a boundary inside. */
static int64_t words_of(const uint32_t *ends, size_t count) {
    uint32_t offsets = 2, own = 0, block = 0;
    for (size_t i = 0; i < count && ends[i] < CODE_POINTS; i++) {
        offsets = ends[i] / 1024 < 1087 ? ends[i] / 1024 + 2 : 1088;
        own += ends[i] % 1024 > 0 && ends[i] / 1024 > block;
        if (ends[i] % 1024 > 0) block = ends[i] / 1024;
    }
    return offsets + 48 + 16 * own;
}

/* Freezes the set into exactly as many words as it needs, before a closed page. A buffer that is
   too short is unchanged, and so is the rest of a longer one. */
static uint64_t *frozen(const uint32_t *ends, size_t count, int64_t *size) {
    *size = bks_set_freeze(ends, count, room, 0);
    CHECK(*size == words_of(ends, count) && *size <= BKS_FROZEN_MOST);
    size_t bytes = 8 * (size_t)*size;
    uint64_t *table = (uint64_t *)before_closed_page(bytes);
    CHECK(bks_set_freeze(ends, count, table, (size_t)*size) == *size);
    for (size_t less = 1; less <= (size_t)*size; less += less < 3 ? 1 : 509) {
        uint64_t *shorter = (uint64_t *)before_closed_page(bytes - 8 * less);
        memset(shorter, 0x77, bytes - 8 * less);
        CHECK(bks_set_freeze(ends, count, shorter, (size_t)*size - less) == *size);
        for (size_t i = 0; i < (size_t)*size - less; i++) CHECK(shorter[i] == 0x7777777777777777);
        released(shorter, bytes - 8 * less);
    }
    memset(room, 0x77, sizeof room);
    CHECK(bks_set_freeze(ends, count, room, (size_t)*size + 8) == *size);
    CHECK(memcmp(room, table, bytes) == 0);
    for (size_t i = 0; i < 8; i++) CHECK(room[(size_t)*size + i] == 0x7777777777777777);
    return table;
}

/* All code points: in the words alone, and with other words behind them. */
static void asks(const set_table *s, const uint64_t *table, size_t size) {
    for (uint32_t c = 0; c < CODE_POINTS; c++) {
        CHECK(bks_frozen_contains(table, size, c) == s->held[c]);
        CHECK(bks_frozen_has(table, c) == s->held[c]);
        CHECK(bks_frozen_contains(room, size + 8, c) == s->held[c]);
    }
    for (uint64_t c = CODE_POINTS; c <= UINT32_MAX; c += c < CODE_POINTS + 300 ? 1 : 0xFFFF)
        CHECK(!bks_frozen_contains(table, size, (uint32_t)c) && !bks_frozen_has(table, (uint32_t)c));
    CHECK(!bks_frozen_contains(table, size, UINT32_MAX) && !bks_frozen_has(table, UINT32_MAX));
}

/* Texts, and ICU's frozen set of the same ranges. */
static void spans(const set_table *s, const uint64_t *table, size_t size) {
    size_t bytes, front[2], back[2], count, unit_front[2];
    char *text = text_about(s, &bytes, front, back);
    uint16_t *units = units_about(s, &count, unit_front);
    for (int held = 0; held < 2; held++) {
        CHECK(bks_frozen_span(table, size, text, bytes, held) == (int64_t)front[held]);
        CHECK(bks_set_span(s->ends, s->count, text, bytes, held) == (int64_t)front[held]);
        CHECK(bks_frozen_span_back(table, size, text, bytes, held) == (int64_t)back[held]);
        CHECK(bks_set_span_back(s->ends, s->count, text, bytes, held) == (int64_t)back[held]);
        CHECK(bks_frozen_span_utf16(table, size, units, count, held) == unit_front[held]);
        CHECK(bks_set_span_utf16(s->ends, s->count, units, count, held) == unit_front[held]);
    }
#ifdef WITH_ICU
    USet *icu = uset_openEmpty();
    for (size_t i = 0; i < s->count; i += 2)
        uset_addRange(icu, (UChar32)s->ends[i], (UChar32)s->ends[i + 1] - 1);
    uset_freeze(icu);
    for (uint32_t c = 0; c < CODE_POINTS; c++)
        CHECK(bks_frozen_has(table, c) == (bool)uset_contains(icu, (UChar32)c));
    CHECK((size_t)uset_spanUTF8(icu, text, (int32_t)bytes, USET_SPAN_SIMPLE) == front[1]);
    CHECK((size_t)uset_spanUTF8(icu, text, (int32_t)bytes, USET_SPAN_NOT_CONTAINED) == front[0]);
    CHECK((size_t)uset_spanBackUTF8(icu, text, (int32_t)bytes, USET_SPAN_SIMPLE) == back[1]);
    CHECK((size_t)uset_spanBackUTF8(icu, text, (int32_t)bytes, USET_SPAN_NOT_CONTAINED) == back[0]);
    CHECK((size_t)uset_span(icu, (const UChar *)units, (int32_t)count, USET_SPAN_SIMPLE) == unit_front[1]);
    CHECK((size_t)uset_span(icu, (const UChar *)units, (int32_t)count, USET_SPAN_NOT_CONTAINED) == unit_front[0]);
    uset_close(icu);
#endif
    released(text, bytes);
    released(units, 2 * count);
}

/* Every second code point, so that each block has words of its own; no code point; all; White_Space; and
   the last one, whose block is the last one. */
static void extremes(void) {
    static uint32_t ends[CODE_POINTS];
    const uint32_t all[] = {0, CODE_POINTS}, last[] = {CODE_POINTS - 1, CODE_POINTS};
    const uint32_t spaces[] = {0x09,   0x0E,   0x20,   0x21,   0x85,   0x86,   0xA0,   0xA1,   0x1680, 0x1681,
                               0x2000, 0x200B, 0x2028, 0x202A, 0x202F, 0x2030, 0x205F, 0x2060, 0x3000, 0x3001};
    int64_t size;
    for (uint32_t c = 0; c < CODE_POINTS; c++) ends[c] = c;
    uint64_t *table = frozen(ends, CODE_POINTS, &size);
    CHECK(size == BKS_FROZEN_MOST);
    for (uint32_t c = 0; c < CODE_POINTS; c++) CHECK(bks_frozen_has(table, c) == (c % 2 == 0));
    table = frozen(ends, 0, &size);
    CHECK(size == 50);
    for (uint32_t c = 0; c < CODE_POINTS; c++) CHECK(!bks_frozen_has(table, c));
    table = frozen(all, 2, &size);
    CHECK(size == 50);
    for (uint32_t c = 0; c < CODE_POINTS; c++) CHECK(bks_frozen_has(table, c));
    table = frozen(spaces, 20, &size);
    CHECK(size == 110);
    for (uint32_t c = 0; c < CODE_POINTS; c++) CHECK(bks_frozen_has(table, c) == bks_set_contains(spaces, 20, c));
    table = frozen(last, 2, &size);
    CHECK(size == 1152);
    for (uint32_t c = 0; c < CODE_POINTS; c++) CHECK(bks_frozen_has(table, c) == (c == CODE_POINTS - 1));
}

/* Boundaries that are no set. */
static void refused(void) {
    static const uint32_t lists[][4] = {
        {1, 2, 3, 3}, {1, 2, 2, 3}, {2, 1, 3, 4}, {1, 2, 3, 0x110001}, {1, 1, 3, 4}, {0, 9, 8, 9}};
    memset(room, 0x77, sizeof room);
    for (size_t i = 0; i < sizeof lists / sizeof lists[0]; i++)
        CHECK(bks_set_freeze(lists[i], 4, room, BKS_FROZEN_MOST) == BKS_INVALID_SET);
    CHECK(bks_set_freeze(lists[0], 3, room, BKS_FROZEN_MOST) == BKS_INVALID_SET);
    for (size_t i = 0; i < BKS_FROZEN_MOST; i++) CHECK(room[i] == 0x7777777777777777);
}

/* Ill-formed sequences, in the middle of the text, at its start and at its end. The sequences are
   those of the Unicode Standard's table 3-8 and others that table 3-7 leaves out. */
static void ill_formed(void) {
    static const char *const faults[] = {"\x80",         "\xBF",         "\xC0\x80",         "\xC1\xBF",
                                         "\xC2",         "\xE0\x80\x80", "\xE0\x9F\xBF",     "\xED\xA0\x80",
                                         "\xED\xBF\xBF", "\xE4\xB8",     "\xF0\x8F\xBF\xBF", "\xF0\x9F\x98",
                                         "\xF1\x80",     "\xF4\x90\x80\x80", "\xF5\x80\x80\x80", "\xFE", "\xFF"};
    static const uint32_t all[] = {0, CODE_POINTS};
    int64_t size = bks_set_freeze(all, 2, room, BKS_FROZEN_MOST);
    for (size_t i = 0; i < sizeof faults / sizeof faults[0]; i++) {
        size_t length = strlen(faults[i]);
        for (size_t before = 0; before < 3; before++)
            for (size_t after = 0; after < 3; after++) {
                char bytes[32];
                size_t end = 0;
                for (size_t k = 0; k < before; k++) end += write_utf8(k ? 0x61 : 0x4E16, bytes + end);
                size_t front = end;
                memcpy(bytes + end, faults[i], length);
                end += length;
                size_t back = end;
                for (size_t k = 0; k < after; k++) end += write_utf8(k ? 0x1F600 : 0xDF, bytes + end);
                char *text = (char *)memcpy(before_closed_page(end), bytes, end);
                int64_t first = before ? (int64_t)front : BKS_INVALID_UTF8, last = after ? (int64_t)back : BKS_INVALID_UTF8;
                CHECK(bks_frozen_span(room, (size_t)size, text, end, true) == first);
                CHECK(bks_set_span(all, 2, text, end, true) == first);
                CHECK(bks_set_span(NULL, 0, text, end, false) == first);
                CHECK(bks_frozen_span(room, (size_t)size, text, end, false) == (before ? 0 : BKS_INVALID_UTF8));
                CHECK(bks_set_span(all, 2, text, end, false) == (before ? 0 : BKS_INVALID_UTF8));
                CHECK(bks_frozen_span_back(room, (size_t)size, text, end, true) == last);
                CHECK(bks_set_span_back(all, 2, text, end, true) == last);
                CHECK(bks_frozen_span_back(room, (size_t)size, text, end, false) == (after ? (int64_t)end : BKS_INVALID_UTF8));
                CHECK(bks_set_span_back(all, 2, text, end, false) == (after ? (int64_t)end : BKS_INVALID_UTF8));
                released(text, end);
            }
    }
    CHECK(bks_frozen_span(room, (size_t)size, "", 0, true) == 0 && bks_set_span(all, 2, "", 0, false) == 0);
    CHECK(bks_frozen_span_back(room, (size_t)size, "", 0, true) == 0 && bks_set_span_back(all, 2, "", 0, false) == 0);
}

/* What the header says of bytes that may be ill-formed, byte by byte: which ones count as held. */
static void count_as(const uint64_t *table, size_t size, const char *text, size_t bytes, bool *held) {
    for (size_t i = 0; i < bytes; i++) held[i] = bks_frozen_contains(table, size, 0xFFFD);
    for (size_t i = 0; i < bytes; i++)
        for (size_t n = 1; n <= 4 && i + n <= bytes; n++) {
            char own[4];
            uint32_t lead = (uint8_t)text[i], c = n == 1 ? lead : lead & (0x7Fu >> n);
            for (size_t k = 1; k < n; k++) c = c << 6 | ((uint8_t)text[i + k] & 0x3F);
            if (c >= CODE_POINTS || (c >= 0xD800 && c < 0xE000) || write_utf8(c, own) != n) continue;
            if (memcmp(own, text + i, n) == 0)
                for (size_t k = 0; k < n; k++) held[i + k] = bks_frozen_contains(table, size, c);
        }
}

/* Texts of characters, of parts of their bytes and of any bytes, and ICU's spans of them. */
static void lossy(void) {
    static const uint32_t sets[][4] = {
        {0, CODE_POINTS, 0, 0},       {'a', 'c', 0xDF, 0x4E17},    {0xFFFD, 0xFFFE, 0x1F600, 0x1F601},
        {'a', 'c', 0x1F600, 0x1F601}, {'a', 'c', 0xFFFD, 0xFFFE}, {0, 0xFFFD, 0xFFFE, CODE_POINTS}};
    static const char *const parts[] = {
        "a",        "b",    "c",        "\xC3\x9F",     "\xE4\xB8\x96", "\xEF\xBF\xBD", "\xF0\x9F\x98\x80",
        "\x80",     "\xC2", "\xE4\xB8", "\xF0\x9F\x98", "\xED\xA0\x80", "\xC0\x80",     "\xF4\x90",
        "\xE0\x9F", "\xFF", "\xF0\x9F", "\xBF\xBF"};
    for (int turn = 0; turn < 60000; turn++) {
        const uint32_t *ends = sets[below(6)];
        size_t count = ends[2] < ends[3] ? 4 : 2, end = 0;
        char bytes[300];
        bool held[300], is_plain = below(3) == 0;
        for (uint32_t n = below(turn % 16 ? 8 : 60); n > 0; n--) {
            const char *part = parts[below(is_plain ? 7 : 18)];
            char any[2] = {(char)(below(255) + 1), 0};
            if (!is_plain && below(8) == 0) part = any;
            for (uint32_t times = below(6) ? 1 : 1 + below(3); times > 0 && end < 280; times--) {
                memcpy(bytes + end, part, strlen(part));
                end += strlen(part);
            }
        }
        int64_t size = bks_set_freeze(ends, count, room, BKS_FROZEN_MOST);
        char *text = (char *)memcpy(before_closed_page(end), bytes, end);
        count_as(room, (size_t)size, text, end, held);
        for (int is_held = 0; is_held < 2; is_held++) {
            size_t front = 0, back = end;
            while (front < end && held[front] == is_held) front++;
            while (back > 0 && held[back - 1] == is_held) back--;
            CHECK(bks_frozen_span_lossy(room, (size_t)size, text, end, is_held) == front);
            CHECK(bks_frozen_span_back_lossy(room, (size_t)size, text, end, is_held) == back);
#ifdef WITH_ICU
            USet *icu = uset_openEmpty();
            for (size_t i = 0; i < count; i += 2) uset_addRange(icu, (UChar32)ends[i], (UChar32)ends[i + 1] - 1);
            if (turn % 2) uset_freeze(icu);
            USetSpanCondition kind = is_held ? USET_SPAN_SIMPLE : USET_SPAN_NOT_CONTAINED;
            CHECK((size_t)uset_spanUTF8(icu, text, (int32_t)end, kind) == front);
            CHECK((size_t)uset_spanBackUTF8(icu, text, (int32_t)end, kind) == back);
            uset_close(icu);
#endif
        }
        released(text, end);
    }
    CHECK(bks_frozen_span_lossy(room, 0, "\xFF" "a", 2, false) == 2);
    CHECK(bks_frozen_span_back_lossy(room, 0, "\xFF", 1, true) == 1);
}

/* A set of a surrogate: pairs are one code point, and unpaired surrogates one each (ICU: uset_span). */
static void surrogates(void) {
    static const uint32_t high[] = {0xD835, 0xD836}, pair[] = {0x1D400, 0x1D401};
    static const uint16_t text[] = {0xD835, 0xDC00, 0xD835, 0xD835, 0xDC00, 0xDC00};
    CHECK(bks_set_span_utf16(high, 2, text, 6, true) == 0 && bks_set_span_utf16(high, 2, text, 6, false) == 2);
    CHECK(bks_set_span_utf16(pair, 2, text, 6, true) == 2 && bks_set_span_utf16(pair, 2, text + 2, 4, false) == 1);
    CHECK(bks_set_span_utf16(high, 2, text + 2, 1, true) == 1 && bks_set_span_utf16(high, 2, text + 5, 1, false) == 1);
    CHECK(bks_set_span_utf16(pair, 2, text, 0, true) == 0);
}

/* Changes a few words of the table, or cuts it off: the results are what the words say. */
static void damaged(const uint64_t *table, size_t size) {
    static const char text[] = "a\xC3\xA9\xE4\xB8\x96\xF0\x9F\x98\x80 Stra\xC3\x9F" "e";
    static const uint32_t characters[] = {'a', 0xE9, 0x4E16, 0x1F600, ' ', 'S', 't', 'r', 'a', 0xDF, 'e'};
    size_t count = below(3) ? size : below((uint32_t)size + 1);
    uint64_t *copy = (uint64_t *)before_closed_page(8 * count);
    memcpy(copy, table, 8 * count);
    for (uint32_t n = below(40); n > 0 && count > 0; n--)
        copy[below(2) ? below((uint32_t)count) : below(count < 320 ? (uint32_t)count : 320)] =
            below(2) ? next_number() : below((uint32_t)count + 16);
    if (count > 0 && below(4) == 0) copy[0] = (copy[0] & ~(uint64_t)0xFFFFFFFF) | below(4);
    for (uint32_t c = below(64); c < CODE_POINTS + 999; c += 1 + below(199))
        CHECK(bks_frozen_contains(copy, count, c) == said(copy, count, c));
    for (int held = 0; held < 2; held++) {
        char part[8];
        int64_t front = 0;
        for (size_t i = 0; i < 11 && said(copy, count, characters[i]) == held; i++)
            front += (int64_t)write_utf8(characters[i], part);
        CHECK(bks_frozen_span(copy, count, text, sizeof text - 1, held) == front);
        int64_t back = sizeof text - 1;
        for (size_t i = 11; i > 0 && said(copy, count, characters[i - 1]) == held; i--)
            back -= (int64_t)write_utf8(characters[i - 1], part);
        CHECK(bks_frozen_span_back(copy, count, text, sizeof text - 1, held) == back);
    }
    released(copy, 8 * count);
}

int main(int count, char **words) {
    CHECK(count == 3);
    for (int i = atoi(words[1]); i > 0; i--) {
        int64_t size;
        make(&a);
        uint64_t *table = frozen(a.ends, a.count, &size);
        asks(&a, table, (size_t)size);
        spans(&a, table, (size_t)size);
        for (int n = atoi(words[2]); n > 0; n--) damaged(table, (size_t)size);
        released(table, 8 * (size_t)size);
    }
    extremes();
    refused();
    ill_formed();
    lossy();
    surrogates();
    printf("%s frozen sets, each damaged %s times\n", words[1], words[2]);
    return 0;
}
