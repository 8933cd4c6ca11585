/* Random sets, with tables of a flag for each code point. */
#ifndef SET_TABLES_H
#define SET_TABLES_H

#include "parts.h"

enum { MOST = 64 };

typedef struct {
    uint32_t ends[MOST];
    size_t count;
    bool held[CODE_POINTS];
} set_table;

static uint64_t state = 88172645463325252u;

static inline uint64_t next_number(void) {
    state ^= state << 13;
    state ^= state >> 7;
    state ^= state << 17;
    return state;
}

static inline uint32_t below(uint32_t limit) { return (uint32_t)(next_number() >> 16) % limit; }

/* Makes a set of a few ranges, some of them at 0 or 0x10FFFF, with its table. */
static inline void make(set_table *s) {
    uint32_t step = below(2) ? 200 : CODE_POINTS / 32, next = below(2) ? 0 : below(step);
    size_t count = 2 * below(MOST / 2);
    memset(s->held, 0, sizeof s->held);
    for (s->count = 0; s->count < count && next < CODE_POINTS; s->count++) {
        s->ends[s->count] = next;
        next += 1 + below(step);
    }
    if (s->count % 2 != 0) {
        s->ends[s->count] = below(2) ? CODE_POINTS : s->ends[s->count - 1] + 1;
        s->count++;
    }
    for (size_t i = 0; i < s->count; i += 2)
        memset(s->held + s->ends[i], 1, s->ends[i + 1] - s->ends[i]);
}

/* A code point in or near the set. The first ones are alike, so that spans are not all short. */
static inline uint32_t point_near(const set_table *s, int i) {
    uint32_t c = s->count && below(8) ? s->ends[below((uint32_t)s->count)] : below(CODE_POINTS);
    return i < 32 && s->count ? s->ends[0] : c < CODE_POINTS ? c : CODE_POINTS - 1;
}

/* Makes a text of characters in and near the set, before a closed page, the sizes of its spans, and
   the offsets of its spans from the end. */
static inline char *text_about(const set_table *s, size_t *size, size_t front[2], size_t back[2]) {
    static char text[1 << 12];
    bool going[2] = {true, true};
    *size = front[0] = front[1] = back[0] = back[1] = 0;
    for (int i = 0; i < 288; i++) {
        uint32_t c = point_near(s, i < 256 ? i : 0);
        if (c >= 0xD800 && c < 0xE000) continue;
        *size += write_utf8(c, text + *size);
        for (int held = 0; held < 2; held++) {
            going[held] = going[held] && s->held[c] == held;
            if (going[held]) front[held] = *size;
            if (s->held[c] != held) back[held] = *size;
        }
    }
    return (char *)memcpy(before_closed_page(*size), text, *size);
}

/* Makes units of code points in and near the set, before a closed page, and the sizes of its spans.
   A surrogate follows only characters, so that none is part of a pair. */
static inline uint16_t *units_about(const set_table *s, size_t *count, size_t front[2]) {
    static uint16_t units[600];
    bool going[2] = {true, true}, is_high = false;
    *count = front[0] = front[1] = 0;
    for (int i = 0; i < 256; i++) {
        uint32_t c = point_near(s, i);
        if (is_high && c >= 0xDC00 && c < 0xE000) continue;
        is_high = c >= 0xD800 && c < 0xDC00;
        if (c > 0xFFFF) units[(*count)++] = (uint16_t)(0xD7C0 + (c >> 10));
        units[(*count)++] = (uint16_t)(c > 0xFFFF ? 0xDC00 + (c & 0x3FF) : c);
        for (int held = 0; held < 2; held++) {
            going[held] = going[held] && s->held[c] == held;
            if (going[held]) front[held] = *count;
        }
    }
    return (uint16_t *)memcpy(before_closed_page(2 * *count), units, 2 * *count);
}

#endif
