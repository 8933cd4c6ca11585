/* What the tests in C share: files, the runs of a table, and memory before a page that cannot be
   read or written. */
#ifndef PARTS_H
#define PARTS_H

#ifndef _DEFAULT_SOURCE
#define _DEFAULT_SOURCE /* mmap, in strict C */
#endif

#include "bekstaudi.h"
#include <stdio.h>
#include <stdlib.h>
#include <sys/mman.h>

enum { CODE_POINTS = 0x110000, PAGE = 4096 };

#define CHECK(x)                                                                         \
    do {                                                                                 \
        if (!(x)) {                                                                      \
            fprintf(stderr, "%s:%d: not so: %s\n", __FILE__, __LINE__, #x);              \
            exit(1);                                                                     \
        }                                                                                \
    } while (0)

/* Returns `size` bytes of memory that end where a page that cannot be accessed starts. */
static inline uint8_t *before_closed_page(size_t size) {
    size_t open = (size + PAGE - 1) / PAGE * PAGE + PAGE;
    uint8_t *pages = (uint8_t *)mmap(NULL, open + PAGE, PROT_READ | PROT_WRITE,
                                     MAP_PRIVATE | MAP_ANONYMOUS, -1, 0);
    CHECK(pages != MAP_FAILED);
    CHECK(mprotect(pages + open, PAGE, PROT_NONE) == 0);
    return pages + open - size;
}

/* Frees such memory. */
static inline void released(void *bytes, size_t size) {
    size_t open = (size + PAGE - 1) / PAGE * PAGE + PAGE;
    CHECK(munmap((uint8_t *)bytes + size - open, open + PAGE) == 0);
}

/* Returns the bytes of a file, before a closed page. */
static inline uint8_t *file_bytes(const char *path, size_t *size) {
    FILE *file = fopen(path, "rb");
    CHECK(file && fseek(file, 0, SEEK_END) == 0);
    *size = (size_t)ftell(file);
    rewind(file);
    uint8_t *bytes = before_closed_page(*size);
    CHECK(fread(bytes, 1, *size, file) == *size);
    fclose(file);
    return bytes;
}

/* Reads the runs of a table: lines HEX..HEX;N and HEX;N, with all code points in order. */
static inline size_t read_runs(const char *path, bks_range *runs, size_t room) {
    FILE *file = fopen(path, "r");
    char line[64];
    size_t count = 0;
    CHECK(file);
    while (fgets(line, sizeof line, file)) {
        unsigned first, last, value;
        if (sscanf(line, "%x..%x;%u", &first, &last, &value) != 3) {
            CHECK(sscanf(line, "%x;%u", &first, &value) == 2);
            last = first;
        }
        CHECK(count < room);
        runs[count].first = first;
        runs[count].last = last;
        runs[count].value = value;
        runs[count++].found = true;
    }
    fclose(file);
    CHECK(count > 0 && runs[0].first == 0 && runs[count - 1].last == CODE_POINTS - 1);
    return count;
}

static inline bool same_range(const bks_range *a, const bks_range *b) {
    return a->found == b->found && a->first == b->first && a->last == b->last &&
           a->value == b->value;
}

static inline uint32_t called(const bks_trie *trie, uint32_t c) {
    return trie->width == 1   ? bks_trie8_get(trie, c)
           : trie->width == 2 ? bks_trie16_get(trie, c)
                              : bks_trie32_get(trie, c);
}

static inline uint32_t in_line(const bks_trie *trie, uint32_t c) {
    return trie->width == 1   ? bks_get8(trie, c)
           : trie->width == 2 ? bks_get16(trie, c)
                              : bks_get32(trie, c);
}

static inline size_t many(const bks_trie *trie, const uint32_t *points, size_t count, void *values,
                          size_t room) {
    return trie->width == 1 ? bks_trie8_get_many(trie, points, count, (uint8_t *)values, room)
           : trie->width == 2
               ? bks_trie16_get_many(trie, points, count, (uint16_t *)values, room)
               : bks_trie32_get_many(trie, points, count, (uint32_t *)values, room);
}

static inline int64_t of_text(const bks_trie *trie, const char *text, size_t size, void *values,
                              size_t room) {
    return trie->width == 1 ? bks_trie8_get_utf8(trie, text, size, (uint8_t *)values, room)
           : trie->width == 2
               ? bks_trie16_get_utf8(trie, text, size, (uint16_t *)values, room)
               : bks_trie32_get_utf8(trie, text, size, (uint32_t *)values, room);
}

static inline size_t copied(const bks_trie *trie, const char *text, size_t size, void *values,
                            size_t room, size_t *taken) {
    return trie->width == 1 ? bks_trie8_copy_utf8(trie, text, size, (uint8_t *)values, room, taken)
           : trie->width == 2
               ? bks_trie16_copy_utf8(trie, text, size, (uint16_t *)values, room, taken)
               : bks_trie32_copy_utf8(trie, text, size, (uint32_t *)values, room, taken);
}

static inline size_t of_units(const bks_trie *trie, const uint16_t *text, size_t count, void *values,
                              size_t room) {
    return trie->width == 1 ? bks_trie8_get_utf16(trie, text, count, (uint8_t *)values, room)
           : trie->width == 2
               ? bks_trie16_get_utf16(trie, text, count, (uint16_t *)values, room)
               : bks_trie32_get_utf16(trie, text, count, (uint32_t *)values, room);
}

static inline uint32_t next_of_text(const bks_trie *trie, const char *text, size_t size, size_t *at,
                                    uint32_t *c) {
    return trie->width == 1   ? bks_next8_utf8(trie, text, size, at, c)
           : trie->width == 2 ? bks_next16_utf8(trie, text, size, at, c)
                              : bks_next32_utf8(trie, text, size, at, c);
}

static inline uint32_t next_of_units(const bks_trie *trie, const uint16_t *text, size_t count,
                                     size_t *at, uint32_t *c) {
    return trie->width == 1   ? bks_next8_utf16(trie, text, count, at, c)
           : trie->width == 2 ? bks_next16_utf16(trie, text, count, at, c)
                              : bks_next32_utf16(trie, text, count, at, c);
}

/* Writes a code point in UTF-8, and returns its size. */
static inline size_t write_utf8(uint32_t c, char *text) {
    size_t more = c < 0x80 ? 0 : c < 0x800 ? 1 : c < 0x10000 ? 2 : 3, size = more + 1;
    if (more == 0) *text++ = (char)c;
    else *text++ = (char)((0xFF00u >> (more + 1) & 0xFF) | c >> 6 * more);
    while (more-- > 0) *text++ = (char)(0x80 | (c >> 6 * more & 0x3F));
    return size;
}

static inline uint32_t value_in(const bks_trie *trie, const void *values, size_t i) {
    return trie->width == 1   ? ((const uint8_t *)values)[i]
           : trie->width == 2 ? ((const uint16_t *)values)[i]
                              : ((const uint32_t *)values)[i];
}

#endif
