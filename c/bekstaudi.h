/* bekstaudi.h: code point tries, sets of code points and unit tries, over your own memory.
 *
 * A trie has a value for each code point. It is read in place from the bytes that ICU's
 * ucptrie_toBinary writes. A set is the ascending list of its boundaries: it contains the code
 * points from the first number up to but not including the second, from the third up to but not
 * including the fourth, and so on. So {0x41, 0x5B} is A to Z. A unit trie has a number for each key
 * of a list, and is read in place from what ICU's UCharsTrieBuilder writes.
 *
 * Nothing is stored between calls, and nothing has to be freed. Results go into your buffers. Unless
 * its comment says otherwise, a function writes as many as fit and returns how many there are in all:
 * if that is more than fit, call it again with a larger buffer. bks_trie_build, bks_set_freeze,
 * bks_units_build and bks_units_build_utf8 write all or nothing. The rest of a buffer is unchanged.
 *
 * A code point is any 32-bit number. Above 0x10FFFF a trie returns its error value, and no set
 * contains the number. A `count` is a number of items, a `size` a number of bytes, and `room` the
 * length of an output buffer in items. The bytes of tries, unit tries and texts may be at any
 * address; numbers of 16, 32 and 64 bits have to be aligned as in C. If a count, a size or a room
 * is 0, the pointer beside it may be NULL; no other pointer may be. An output buffer may not
 * overlap an input. All functions may be called from several threads at once, as long as nobody
 * changes what they read.
 *
 * The functions are in the library, and are proved (README.md says what is), but for the inline
 * ones at the end of this header, which are tested. Those whose comment says so allocate with malloc
 * while they run. Use C99 or later, or C++11 or later, with gcc or clang, on x86-64 Linux.
 * The proved library needs a processor with SSE4.2 (x86-64-v2); cargo's runs on any. Link with
 * -lbekstaudi. */
#ifndef BEKSTAUDI_H
#define BEKSTAUDI_H

#include <stdbool.h>
#include <stddef.h>
#include <stdint.h>
#include <string.h>

#if !defined(__BYTE_ORDER__) || __BYTE_ORDER__ != __ORDER_LITTLE_ENDIAN__
#error "bekstaudi.h: expected gcc or clang, and a little-endian machine"
#endif

#ifdef __cplusplus
extern "C" {
#endif

/** The version of this header, as text. */
#define BKS_VERSION "0.2.0"
/** The version of this header, as a number: 1.2.3 is 10203. */
#define BKS_VERSION_NUMBER 200

/** Returns the version of the library, which may be newer than the header.
 *
 * @return the number of the version: 1.2.3 is 10203
 *
 * ICU: u_getVersion. */
uint32_t bks_version(void);

/* ---- Types ----------------------------------------------------------------------------------- */

/** Why a function fails. bks_trie_open returns BKS_OK or one of the positive numbers: the first that applies, in this
 * order. The others return a negative number instead of a count; their output buffers are then unchanged. */
enum bks_error {
    BKS_OK = 0,
    BKS_SHORT = 1,            /**< fewer than the 16 bytes of a header */
    BKS_SIGNATURE = 2,        /**< the signature is not that of a trie */
    BKS_SWAPPED = 3,          /**< a trie of a big-endian machine */
    BKS_UNKNOWN_TYPE = 4,     /**< the type is neither fast nor small */
    BKS_UNKNOWN_WIDTH = 5,    /**< the values have none of the widths 8, 16 and 32 bits */
    BKS_RESERVED = 6,         /**< a reserved bit is not 0 */
    BKS_OTHER_WIDTH = 7,      /**< only in exceptions of bekstaudi.hpp: bks_trie_open accepts any width */
    BKS_CUT_OFF = 8,          /**< fewer bytes than the index and the data take */
    BKS_EMPTY_DATA = 10,      /**< the data is empty */
    BKS_SHORT_INDEX = 12,     /**< fewer index cells than blocks below the fast limit */
    BKS_SHORT_DATA = 13,      /**< a block below the fast limit ends after the data */

    BKS_NO_MEMORY = -1,       /**< an allocation failed */
    BKS_INVALID_TRIE = -2,    /**< the trie was not made by bks_trie_open, or the units are not a trie */
    BKS_INVALID_UTF8 = -3,    /**< the text is not UTF-8; of spans and of the keys at its start: not at its start. To
                                   find where, call bks_set_span(NULL, 0, text, size, false): it returns the offset
                                   of the first ill-formed sequence, or BKS_INVALID_UTF8 if that is 0 */
    BKS_NO_KEY = -4,          /**< no key of a unit trie is a prefix of the text */
    BKS_INVALID_FORMAT = -5,  /**< the type or the width does not exist */
    BKS_WIDE_VALUE = -6,      /**< a value has more bits than the width */
    BKS_TOO_LARGE = -7,       /**< the trie would be too large, or a listing has 2^63 entries or bytes */
    BKS_INVALID_ENTRIES = -8, /**< the numbers of keys and of values differ, or the keys need more units than there
                                   are */
    BKS_LONG_KEY = -9,        /**< a key has more than 65,535 units */
    BKS_SAME_KEY = -10,       /**< two entries have the same key */
    BKS_INVALID_SET = -11     /**< bks_set_test returns false for a list of boundaries */
};

/** A trie, passed by value: copy it and drop it as you like. Its cells are in the bytes that it was
 * opened from. These have to stay at their address, unchanged, while it is used. Read its fields,
 * never write them: the inline look-ups rely on them. A bks_trie of zeros, and one that
 * bks_trie_open could not open, has no cells, and all its values are 0. */
typedef struct bks_trie {
    const uint8_t *index;             /**< the bytes of the index, two for each cell */
    size_t index_size;                /**< how many bytes the index takes */
    const uint8_t *values;            /**< the bytes of the data, `width` for each cell */
    size_t values_size;               /**< how many bytes the data takes */
    size_t size;                      /**< how many bytes the trie takes, header included */
    uint32_t fast_limit;              /**< the first code point without a cell in the fast index:
                                         0x10000 for a fast trie, 0x1000 for a small one, 0 if
                                         there is no trie */
    uint32_t high_start;              /**< from this code point on all have one value */
    uint32_t null_value;              /**< the value of the null blocks */
    uint32_t data_null_offset;        /**< the offset of the null block in the data, in cells */
    uint32_t width;                   /**< how many bytes a value takes: 1, 2 or 4 */
    uint16_t index3_null_offset;      /**< the index-2 cell of blocks of 512 with the null value */
    uint16_t shifted12_high_start;    /**< high_start / 0x1000, rounded up */
} bks_trie;

/** The code points from `first` to `last`, both included, and their value. */
typedef struct bks_range {
    uint32_t first;
    uint32_t last;
    uint32_t value;
    bool found;                       /**< false if there is no range: other fields are then 0 */
} bks_range;

/** The code points from `first` to `last`, both included. There are none if first > last. */
typedef struct bks_interval {
    uint32_t first;
    uint32_t last;
} bks_interval;

/** The type of a trie that is built. ICU: UCPTrieType. */
enum bks_type {
    BKS_FAST = 0,   /**< look-ups below 0x10000 take two reads */
    BKS_SMALL = 1   /**< only look-ups below 0x1000 take two reads, but the trie is smaller */
};

/** The code points from `first` to `last`, both included, and the value that they get. */
typedef struct bks_row {
    uint32_t first;
    uint32_t last;
    uint32_t value;
} bks_row;

/** The result of a step in a unit trie. Bit 0 is 1 if a key continues. ICU: UStringTrieResult. */
enum bks_step {
    BKS_NO_MATCH = 0,           /**< no key starts with these units; from here no unit matches */
    BKS_NO_VALUE = 1,           /**< no key ends here, but one continues */
    BKS_FINAL_VALUE = 2,        /**< a key ends here, and none continues */
    BKS_INTERMEDIATE_VALUE = 3  /**< a key ends here, and one continues */
};

/** A position in a unit trie, passed by value: copy it and drop it as you like. All zeros is the
 * root, before any unit. Any numbers are accepted: from a position to which no step led, the units
 * say what follows, and nothing matches if a unit is missing. */
typedef struct bks_cursor {
    size_t position;                  /**< the index of the next unit */
    uint16_t left;                    /**< 0 at a node. In a run of units that all have to match,
                                         how many are left, 1 to 256. After no match it is above 256,
                                         or `position` is past the units */
} bks_cursor;

/** A key that is a prefix of a text: how many units of the text it takes, or bytes if the text is
 * UTF-8, and its value. */
typedef struct bks_prefix {
    size_t length;
    int32_t value;
} bks_prefix;

/** An entry of a unit trie: the offset and the size of its text among the bytes of all texts, and
 * its value. */
typedef struct bks_word {
    size_t start;
    size_t size;
    int32_t value;
} bks_word;

/* ---- Tries ----------------------------------------------------------------------------------- */

/** Opens the trie at the start of the bytes, of either type and any width: call bks_open instead.
 *
 * The bytes after the trie are not read; trie->size says how many bytes it takes. With a fault,
 * *trie has no cells and its numbers are 0.
 *
 * It writes every field of *trie and reads none, so *trie may be uninitialized: the compiled code
 * and tests show this. The proof assumes that *trie is a valid bks_trie; bks_open first makes it
 * one.
 *
 * @param bytes a trie in ICU's binary form, at any address. It has to stay there, unchanged, while
 *     the trie is used
 * @param size how many bytes there are
 * @param trie receives the trie
 * @return BKS_OK, or the first fault in the order of enum bks_error
 *
 * ICU: ucptrie_openFromBinary. */
uint32_t bks_trie_open(const void *bytes, size_t size, bks_trie *trie);

/** Returns the value of a code point, in a trie with values of 8 bits.
 *
 * Unspecified (but memory-safe) for a trie of another width. bks_get8 is the same, inline.
 *
 * @param trie a trie that bks_open opened
 * @param c the code point, any number
 * @return its value; the error value if c is above 0x10FFFF
 *
 * ICU: ucptrie_get. */
uint8_t bks_trie8_get(const bks_trie *trie, uint32_t c);

/** Returns the value of a code point, in a trie with values of 16 bits.
 *
 * Unspecified (but memory-safe) for a trie of another width. bks_get16 is the same, inline.
 *
 * @param trie a trie that bks_open opened
 * @param c the code point, any number
 * @return its value; the error value if c is above 0x10FFFF
 *
 * ICU: ucptrie_get. */
uint16_t bks_trie16_get(const bks_trie *trie, uint32_t c);

/** Returns the value of a code point, in a trie with values of 32 bits.
 *
 * Unspecified (but memory-safe) for a trie of another width. bks_get32 is the same, inline.
 *
 * @param trie a trie that bks_open opened
 * @param c the code point, any number
 * @return its value; the error value if c is above 0x10FFFF
 *
 * ICU: ucptrie_get. */
uint32_t bks_trie32_get(const bks_trie *trie, uint32_t c);

/** Writes the values of many code points, in a trie with values of 8 bits.
 *
 * values[i] becomes the value of points[i], for each i below both `count` and `room`. Unspecified
 * (but memory-safe) for a trie of another width.
 *
 * @param trie a trie that bks_open opened
 * @param points the code points, any numbers
 * @param count how many there are
 * @param values receives the values
 * @param room how many values fit
 * @return how many values it wrote: the smaller one of `count` and `room` */
size_t bks_trie8_get_many(const bks_trie *trie, const uint32_t *points, size_t count,
                          uint8_t *values, size_t room);

/** Writes the values of many code points, in a trie with values of 16 bits.
 *
 * values[i] becomes the value of points[i], for each i below both `count` and `room`. Unspecified
 * (but memory-safe) for a trie of another width.
 *
 * @param trie a trie that bks_open opened
 * @param points the code points, any numbers
 * @param count how many there are
 * @param values receives the values
 * @param room how many values fit
 * @return how many values it wrote: the smaller one of `count` and `room` */
size_t bks_trie16_get_many(const bks_trie *trie, const uint32_t *points, size_t count,
                           uint16_t *values, size_t room);

/** Writes the values of many code points, in a trie with values of 32 bits.
 *
 * values[i] becomes the value of points[i], for each i below both `count` and `room`. Unspecified
 * (but memory-safe) for a trie of another width.
 *
 * @param trie a trie that bks_open opened
 * @param points the code points, any numbers
 * @param count how many there are
 * @param values receives the values
 * @param room how many values fit
 * @return how many values it wrote: the smaller one of `count` and `room` */
size_t bks_trie32_get_many(const bks_trie *trie, const uint32_t *points, size_t count,
                           uint32_t *values, size_t room);

/** Writes the values of the characters of a UTF-8 text, in a trie with values of 8 bits.
 *
 * It writes as many as fit, in order. If only some bytes of a text may be ill-formed,
 * bks_trie8_copy_utf8 goes on after them, and is faster.
 *
 * @param trie a trie that bks_open opened
 * @param text the text in UTF-8, which need not end with NUL
 * @param size how many bytes the text has
 * @param values receives the values
 * @param room how many values fit
 * @return how many characters there are, never more than `size`; or BKS_INVALID_UTF8 if the text is not
 *     UTF-8, and `values` is then unchanged */
int64_t bks_trie8_get_utf8(const bks_trie *trie, const char *text, size_t size, uint8_t *values,
                           size_t room);

/** Writes the values of the characters of a UTF-8 text, in a trie with values of 16 bits.
 *
 * It writes as many as fit, in order. If only some bytes of a text may be ill-formed,
 * bks_trie16_copy_utf8 goes on after them, and is faster.
 *
 * @param trie a trie that bks_open opened
 * @param text the text in UTF-8, which need not end with NUL
 * @param size how many bytes the text has
 * @param values receives the values
 * @param room how many values fit
 * @return how many characters there are, never more than `size`; or BKS_INVALID_UTF8 if the text is not
 *     UTF-8, and `values` is then unchanged */
int64_t bks_trie16_get_utf8(const bks_trie *trie, const char *text, size_t size, uint16_t *values,
                            size_t room);

/** Writes the values of the characters of a UTF-8 text, in a trie with values of 32 bits.
 *
 * It writes as many as fit, in order. If only some bytes of a text may be ill-formed,
 * bks_trie32_copy_utf8 goes on after them, and is faster.
 *
 * @param trie a trie that bks_open opened
 * @param text the text in UTF-8, which need not end with NUL
 * @param size how many bytes the text has
 * @param values receives the values
 * @param room how many values fit
 * @return how many characters there are, never more than `size`; or BKS_INVALID_UTF8 if the text is not
 *     UTF-8, and `values` is then unchanged */
int64_t bks_trie32_get_utf8(const bks_trie *trie, const char *text, size_t size, uint32_t *values,
                            size_t room);

/** Writes the values of the characters of bytes that may be ill-formed UTF-8, in a trie with values
 * of 8 bits.
 *
 * The fastest way to the values of a text. It writes as many as fit, in order, and stops at the end
 * of the buffer or of the text. So a long text goes piece by piece: call it again with what follows
 * the bytes taken. With room 1, *taken is the size of the first character.
 *
 * An ill-formed part gets the error value: each part that the Unicode Standard replaces by one
 * U+FFFD (U+FFFD Substitution of Maximal Subparts). To find these parts, use an error value that no
 * character has. If the text itself comes in pieces, a character that is cut off at the end of one
 * counts as ill-formed: keep up to three bytes for the next piece.
 *
 * @param trie a trie that bks_open opened
 * @param text any bytes
 * @param size how many bytes the text has
 * @param values receives the values
 * @param room how many values fit
 * @param taken receives how many bytes these values are from
 * @return how many values it wrote
 *
 * ICU: UCPTRIE_FAST_U8_NEXT in a loop. */
size_t bks_trie8_copy_utf8(const bks_trie *trie, const char *text, size_t size, uint8_t *values,
                           size_t room, size_t *taken);

/** Writes the values of the characters of bytes that may be ill-formed UTF-8, in a trie with values
 * of 16 bits.
 *
 * The fastest way to the values of a text. It writes as many as fit, in order, and stops at the end
 * of the buffer or of the text. So a long text goes piece by piece: call it again with what follows
 * the bytes taken. With room 1, *taken is the size of the first character.
 *
 * An ill-formed part gets the error value: each part that the Unicode Standard replaces by one
 * U+FFFD (U+FFFD Substitution of Maximal Subparts). To find these parts, use an error value that no
 * character has. If the text itself comes in pieces, a character that is cut off at the end of one
 * counts as ill-formed: keep up to three bytes for the next piece.
 *
 * @param trie a trie that bks_open opened
 * @param text any bytes
 * @param size how many bytes the text has
 * @param values receives the values
 * @param room how many values fit
 * @param taken receives how many bytes these values are from
 * @return how many values it wrote
 *
 * ICU: UCPTRIE_FAST_U8_NEXT in a loop. */
size_t bks_trie16_copy_utf8(const bks_trie *trie, const char *text, size_t size, uint16_t *values,
                            size_t room, size_t *taken);

/** Writes the values of the characters of bytes that may be ill-formed UTF-8, in a trie with values
 * of 32 bits.
 *
 * The fastest way to the values of a text. It writes as many as fit, in order, and stops at the end
 * of the buffer or of the text. So a long text goes piece by piece: call it again with what follows
 * the bytes taken. With room 1, *taken is the size of the first character.
 *
 * An ill-formed part gets the error value: each part that the Unicode Standard replaces by one
 * U+FFFD (U+FFFD Substitution of Maximal Subparts). To find these parts, use an error value that no
 * character has. If the text itself comes in pieces, a character that is cut off at the end of one
 * counts as ill-formed: keep up to three bytes for the next piece.
 *
 * @param trie a trie that bks_open opened
 * @param text any bytes
 * @param size how many bytes the text has
 * @param values receives the values
 * @param room how many values fit
 * @param taken receives how many bytes these values are from
 * @return how many values it wrote
 *
 * ICU: UCPTRIE_FAST_U8_NEXT in a loop. */
size_t bks_trie32_copy_utf8(const bks_trie *trie, const char *text, size_t size, uint32_t *values,
                            size_t room, size_t *taken);

/** Writes the values of the code points of 16-bit units, in a trie with values of 8 bits.
 *
 * It writes as many as fit, in order. A high surrogate and the low surrogate after it are one code
 * point. Each other unit is a code point of its own, even an unpaired surrogate.
 *
 * @param trie a trie that bks_open opened
 * @param text the units, in any order
 * @param count how many units there are
 * @param values receives the values
 * @param room how many values fit
 * @return how many code points there are, never more than `count`
 *
 * ICU: U16_NEXT and ucptrie_get in a loop. */
size_t bks_trie8_get_utf16(const bks_trie *trie, const uint16_t *text, size_t count,
                           uint8_t *values, size_t room);

/** Writes the values of the code points of 16-bit units, in a trie with values of 16 bits.
 *
 * It writes as many as fit, in order. A high surrogate and the low surrogate after it are one code
 * point. Each other unit is a code point of its own, even an unpaired surrogate.
 *
 * @param trie a trie that bks_open opened
 * @param text the units, in any order
 * @param count how many units there are
 * @param values receives the values
 * @param room how many values fit
 * @return how many code points there are, never more than `count`
 *
 * ICU: U16_NEXT and ucptrie_get in a loop. */
size_t bks_trie16_get_utf16(const bks_trie *trie, const uint16_t *text, size_t count,
                            uint16_t *values, size_t room);

/** Writes the values of the code points of 16-bit units, in a trie with values of 32 bits.
 *
 * It writes as many as fit, in order. A high surrogate and the low surrogate after it are one code
 * point. Each other unit is a code point of its own, even an unpaired surrogate.
 *
 * @param trie a trie that bks_open opened
 * @param text the units, in any order
 * @param count how many units there are
 * @param values receives the values
 * @param room how many values fit
 * @return how many code points there are, never more than `count`
 *
 * ICU: U16_NEXT and ucptrie_get in a loop. */
size_t bks_trie32_get_utf16(const bks_trie *trie, const uint16_t *text, size_t count,
                            uint32_t *values, size_t room);

/** Returns whether the trie's header is right about the high value and the null blocks.
 *
 * It is in every trie that ICU or bks_trie_build built. Look-ups do not rely on the header. Ranges
 * do: in a coherent trie they are the longest runs of equal values, in another one they may be
 * shorter or have another value.
 *
 * @param trie a trie that bks_open opened
 * @return true if the trie is coherent */
bool bks_trie_is_coherent(const bks_trie *trie);

/** Returns the range of one value that starts at a code point.
 *
 * All ranges of a trie:
 *     for (bks_range r = bks_trie_range(&t, 0); r.found; r = bks_trie_range(&t, r.last + 1)) ..
 *
 * @param trie a trie that bks_open opened
 * @param c the first code point of the range, any number
 * @return the range. Its field `found` is false if c is above 0x10FFFF, or if the trie lacks a cell
 *
 * ICU: ucptrie_getRange. */
bks_range bks_trie_range(const bks_trie *trie, uint32_t c);

/** Writes consecutive ranges from a code point on, in less time for each than bks_trie_range.
 *
 * All ranges of a trie, with `bks_range ranges[256]`:
 *     size_t n;
 *     for (uint32_t c = 0; (n = bks_trie_ranges(&t, c, ranges, 256)) > 0;
 *          c = ranges[n - 1].last + 1) ..
 *
 * @param trie a trie that bks_open opened
 * @param c the first code point of the first range, any number
 * @param ranges receives the ranges
 * @param room how many ranges fit
 * @return how many it wrote, 0 if c is above 0x10FFFF. If that is less than `room`, there is no range
 *     after the last one
 *
 * ICU: ucptrie_getRange in a loop. */
size_t bks_trie_ranges(const bks_trie *trie, uint32_t c, bks_range *ranges, size_t room);

/** Writes the boundaries of the set of all code points with a value.
 *
 * It writes as many as fit. Allocates with malloc while it runs.
 *
 * @param trie a trie that bks_open opened
 * @param value the value
 * @param ends receives the boundaries
 * @param room how many boundaries fit
 * @return how many boundaries there are, also if more than `room`; or BKS_NO_MEMORY or BKS_INVALID_TRIE,
 *     and `ends` is then unchanged */
int64_t bks_trie_set(const bks_trie *trie, uint32_t value, uint32_t *ends, size_t room);

/** Builds a trie from rows, in ICU's binary form.
 *
 * A later row overwrites an earlier one. A row is empty if its first code point is above its last
 * one, or above 0x10FFFF. One that goes beyond 0x10FFFF ends there. bks_open opens the bytes, as a
 * coherent trie. Allocates with malloc while it runs.
 *
 * The bytes are in `bytes` if all of them fit; otherwise `bytes` is unchanged. So pass
 * bks_trie_bound bytes, or call it first with room 0, or again with more.
 *
 * If no trie is built, it returns the first of these that applies: BKS_INVALID_FORMAT; BKS_WIDE_VALUE, for
 * the value of any row, the default or the error value; BKS_TOO_LARGE; BKS_NO_MEMORY, which may
 * come before BKS_TOO_LARGE. With up to 256 rows, no trie has too many blocks.
 *
 * @param rows the rows, in any order
 * @param count how many rows there are
 * @param default_value the value of code points in no row
 * @param error_value the value of numbers above 0x10FFFF
 * @param type one of enum bks_type
 * @param width how many bytes a value takes: 1, 2 or 4
 * @param bytes receives the trie
 * @param room how many bytes fit
 * @return how many bytes the trie takes, also if more than `room`; or one of enum bks_error
 *
 * ICU: umutablecptrie_setRange for each row, umutablecptrie_buildImmutable and ucptrie_toBinary. */
int64_t bks_trie_build(const bks_row *rows, size_t count, uint32_t default_value,
                       uint32_t error_value, uint32_t type, uint32_t width, void *bytes,
                       size_t room);

/** Returns the most bytes that bks_trie_build takes for so many rows, whatever is in them.
 *
 * A buffer of that size is always large enough. Most tries are much smaller; none takes five
 * million bytes.
 *
 * @param count how many rows there are
 * @param type one of enum bks_type
 * @param width how many bytes a value takes: 1, 2 or 4
 * @return a number of bytes; 0 if the type or the width does not exist */
uint64_t bks_trie_bound(size_t count, uint32_t type, uint32_t width);

/* ---- Sets ------------------------------------------------------------------------------------ */

/** Returns whether the numbers are the boundaries of a set.
 *
 * They are if there is an even count of them, strictly ascending, and none above 0x110000. The
 * empty list is the empty set.
 *
 * @param ends any numbers
 * @param count how many there are
 * @return true if they are */
bool bks_set_test(const uint32_t *ends, size_t count);

/** Returns whether a set contains a code point.
 *
 * Unspecified (but memory-safe) if bks_set_test returns false.
 *
 * @param ends the boundaries of the set
 * @param count how many boundaries there are
 * @param c the code point, any number
 * @return true if the set contains c; false above 0x10FFFF
 *
 * ICU: uset_contains. */
bool bks_set_contains(const uint32_t *ends, size_t count, uint32_t c);

/** Returns how many code points a set contains, surrogates included.
 *
 * @param ends the boundaries of the set
 * @param count how many boundaries there are
 * @return a number of code points, or BKS_INVALID_SET
 *
 * ICU: uset_size. */
int64_t bks_set_size(const uint32_t *ends, size_t count);

/** Returns the size of the longest prefix of a UTF-8 text whose characters are all in a set, or all
 * outside it.
 *
 * It ends at a character boundary. An ill-formed sequence ends it too. So spans with true and false
 * in turn reach the end of the text, or BKS_INVALID_UTF8 at its first ill-formed sequence; skip a byte
 * to go on. It reads at most the four bytes after the span, and none outside the text. Unspecified
 * (but memory-safe) if bks_set_test returns false.
 *
 * @param ends the boundaries of the set
 * @param count how many boundaries there are
 * @param text the text in UTF-8, which need not end with NUL
 * @param size how many bytes the text has
 * @param held true: characters in the set; false: characters outside it
 * @return a number of bytes; or BKS_INVALID_UTF8, exactly if the text is not empty and does not start
 *     with a character
 *
 * ICU: uset_spanUTF8. */
int64_t bks_set_span(const uint32_t *ends, size_t count, const char *text, size_t size, bool held);

/** Returns the offset of the longest suffix of a UTF-8 text whose characters are all in a set, or
 * all outside it.
 *
 * It starts at a character boundary. An ill-formed sequence ends it too. It reads at most the four
 * bytes before the span, and none outside the text. Unspecified (but memory-safe) if bks_set_test
 * returns false.
 *
 * @param ends the boundaries of the set
 * @param count how many boundaries there are
 * @param text the text in UTF-8, which need not end with NUL
 * @param size how many bytes the text has
 * @param held true: characters in the set; false: characters outside it
 * @return an offset in bytes; or BKS_INVALID_UTF8, exactly if the text is not empty and does not end
 *     with a character
 *
 * ICU: uset_spanBackUTF8. */
int64_t bks_set_span_back(const uint32_t *ends, size_t count, const char *text, size_t size,
                          bool held);

/** Returns the length of the longest prefix of a UTF-16 text whose code points are all in a set, or
 * all outside it.
 *
 * A high surrogate and the low surrogate after it are one code point. Each other unit is a code
 * point of its own, even an unpaired surrogate. Unspecified (but memory-safe) if bks_set_test
 * returns false.
 *
 * @param ends the boundaries of the set
 * @param count how many boundaries there are
 * @param text the text in UTF-16
 * @param units how many 16-bit units it has
 * @param held true: characters in the set; false: characters outside it
 * @return a number of 16-bit units
 *
 * ICU: uset_span. */
size_t bks_set_span_utf16(const uint32_t *ends, size_t count, const uint16_t *text, size_t units,
                          bool held);

/** Writes the boundaries of the set of the code points in either of two sets.
 *
 * It writes as many as fit. `ends` may not overlap a or b.
 *
 * @param a the boundaries of the first set
 * @param a_count how many there are
 * @param b the boundaries of the second set
 * @param b_count how many there are
 * @param ends receives the boundaries
 * @param room how many boundaries fit
 * @return how many boundaries there are, never more than a_count + b_count; or BKS_INVALID_SET, and
 *     `ends` is then unchanged
 *
 * ICU: uset_addAll. */
int64_t bks_set_union(const uint32_t *a, size_t a_count, const uint32_t *b, size_t b_count,
                      uint32_t *ends, size_t room);

/** Writes the boundaries of the set of the code points in both of two sets.
 *
 * It writes as many as fit. `ends` may not overlap a or b.
 *
 * @param a the boundaries of the first set
 * @param a_count how many there are
 * @param b the boundaries of the second set
 * @param b_count how many there are
 * @param ends receives the boundaries
 * @param room how many boundaries fit
 * @return how many boundaries there are, never more than a_count + b_count; or BKS_INVALID_SET, and
 *     `ends` is then unchanged
 *
 * ICU: uset_retainAll. */
int64_t bks_set_intersection(const uint32_t *a, size_t a_count, const uint32_t *b, size_t b_count,
                             uint32_t *ends, size_t room);

/** Writes the boundaries of the set of the code points in the first set and not in the second.
 *
 * It writes as many as fit. `ends` may not overlap a or b.
 *
 * @param a the boundaries of the first set
 * @param a_count how many there are
 * @param b the boundaries of the second set
 * @param b_count how many there are
 * @param ends receives the boundaries
 * @param room how many boundaries fit
 * @return how many boundaries there are, never more than a_count + b_count; or BKS_INVALID_SET, and
 *     `ends` is then unchanged
 *
 * ICU: uset_removeAll. */
int64_t bks_set_difference(const uint32_t *a, size_t a_count, const uint32_t *b, size_t b_count,
                           uint32_t *ends, size_t room);

/** Writes the boundaries of the set of the code points in exactly one of two sets.
 *
 * It writes as many as fit. `ends` may not overlap a or b.
 *
 * @param a the boundaries of the first set
 * @param a_count how many there are
 * @param b the boundaries of the second set
 * @param b_count how many there are
 * @param ends receives the boundaries
 * @param room how many boundaries fit
 * @return how many boundaries there are, never more than a_count + b_count; or BKS_INVALID_SET, and
 *     `ends` is then unchanged
 *
 * ICU: uset_complementAll. */
int64_t bks_set_symmetric_difference(const uint32_t *a, size_t a_count, const uint32_t *b,
                                     size_t b_count, uint32_t *ends, size_t room);

/** Writes the boundaries of the set of all code points in ranges.
 *
 * They may be in any order, and may overlap or repeat. Numbers above 0x10FFFF are ignored. It
 * writes as many boundaries as fit. Takes O(n log n) time. Allocates with malloc while it runs.
 *
 * @param ranges the ranges
 * @param count how many there are
 * @param ends receives the boundaries
 * @param room how many boundaries fit
 * @return how many boundaries there are, never more than 2 * count; or BKS_NO_MEMORY, and `ends` is
 *     then unchanged
 *
 * ICU: uset_addRange for each range. */
int64_t bks_set_from_ranges(const bks_interval *ranges, size_t count, uint32_t *ends, size_t room);

/** Writes the boundaries of the set of code points.
 *
 * They may be in any order, and may repeat. Numbers above 0x10FFFF are ignored. It writes as many
 * boundaries as fit. Takes O(n log n) time. Allocates with malloc while it runs.
 *
 * @param points the code points
 * @param count how many there are
 * @param ends receives the boundaries
 * @param room how many boundaries fit
 * @return how many boundaries there are, never more than 2 * count; or BKS_NO_MEMORY, and `ends` is
 *     then unchanged
 *
 * ICU: uset_add for each code point. */
int64_t bks_set_from_points(const uint32_t *points, size_t count, uint32_t *ends, size_t room);

/** Writes the boundaries of the complement of a set: all code points that are not in it.
 *
 * It writes as many as fit.
 *
 * @param ends the boundaries of the set
 * @param count how many boundaries there are
 * @param complement receives the boundaries
 * @param room how many boundaries fit
 * @return how many boundaries there are, never more than count + 2; or BKS_INVALID_SET, and `complement`
 *     is then unchanged
 *
 * ICU: uset_complement. */
int64_t bks_set_complement(const uint32_t *ends, size_t count, uint32_t *complement, size_t room);

/** Returns whether the first set contains all code points of the second one.
 *
 * Takes linear time. Unspecified (but memory-safe) if bks_set_test returns false for one of them.
 *
 * @param a the boundaries of the first set
 * @param a_count how many there are
 * @param b the boundaries of the second set
 * @param b_count how many there are
 * @return true if it does
 *
 * ICU: uset_containsAll. */
bool bks_set_contains_all(const uint32_t *a, size_t a_count, const uint32_t *b, size_t b_count);

/** Finds the index of a code point in a set: how many code points of the set are below it.
 *
 * Takes linear time. Unspecified (but memory-safe) if bks_set_test returns false.
 *
 * @param ends the boundaries of the set
 * @param count how many boundaries there are
 * @param c the code point, any number
 * @param index receives the index, from 0 on. It is unchanged if the set does not contain c
 * @return true if the set contains c
 *
 * ICU: uset_indexOf. */
bool bks_set_index_of(const uint32_t *ends, size_t count, uint32_t c, uint32_t *index);

/** Finds the code point at an index of a set, in ascending order.
 *
 * Takes linear time. Unspecified (but memory-safe) if bks_set_test returns false.
 *
 * @param ends the boundaries of the set
 * @param count how many boundaries there are
 * @param n the index, from 0 on
 * @param c receives the code point. It is unchanged if there is none
 * @return true if the set has more than n code points
 *
 * ICU: uset_charAt. */
bool bks_set_nth(const uint32_t *ends, size_t count, uint32_t n, uint32_t *c);

/** The most 64-bit words that a frozen set takes: 148,224 bytes. */
enum { BKS_FROZEN_MOST = 18528 };
/** Freezes a set, for many look-ups of three reads each.
 *
 * The words are in `table` if all of them fit; otherwise `table` is unchanged: call it first with
 * room 0, or again with more. Allocates with malloc while it runs.
 *
 * First come offsets, one word for each block of 1,024 code points. A block's offset is the index of
 * the first of its sixteen words, each of which has the bits of 64 code points, the first one in the
 * lowest bit. The words of the block of U+0000 follow the offsets, so its offset is also the number
 * of words of offsets. The last offset is that of all later blocks, too: White_Space takes 110 words.
 * Other blocks without members share their words, and so do blocks of members only. Of an offset
 * only the low 32 bits count. There are no pointers in the words: you may copy, store and map them.
 *
 * @param ends the boundaries of the set
 * @param count how many boundaries there are
 * @param table receives the words
 * @param room how many words fit
 * @return how many 64-bit words the frozen set takes, at most BKS_FROZEN_MOST, also if more than
 *     `room`; or BKS_NO_MEMORY or BKS_INVALID_SET
 *
 * ICU: uset_freeze. */
int64_t bks_set_freeze(const uint32_t *ends, size_t count, uint64_t *table, size_t room);

/** Returns whether a frozen set contains a code point.
 *
 * Any words are accepted: if bks_set_freeze did not write them, the result is what their layout
 * says, and words that are missing (from `count` on) count as 0. bks_frozen_has is the same,
 * inline, for words of bks_set_freeze.
 *
 * @param table the words of the frozen set
 * @param count how many words there are
 * @param c the code point, any number
 * @return true if the set contains c; false above 0x10FFFF
 *
 * ICU: uset_contains. */
bool bks_frozen_contains(const uint64_t *table, size_t count, uint32_t c);

/** Returns the size of the longest prefix of a UTF-8 text whose characters are all in a frozen set,
 * or all outside it.
 *
 * It ends at a character boundary. An ill-formed sequence ends it too. So spans with true and false
 * in turn reach the end of the text, or BKS_INVALID_UTF8 at its first ill-formed sequence; skip a byte
 * to go on, or call bks_frozen_span_lossy. It reads at most the nine bytes after the span, and none
 * outside the text. A long span is tested eight bytes at a time. Any words are accepted: see
 * bks_frozen_contains.
 *
 * @param table the words of the frozen set
 * @param count how many words there are
 * @param text the text in UTF-8, which need not end with NUL
 * @param size how many bytes the text has
 * @param held true: characters in the set; false: characters outside it
 * @return a number of bytes; or BKS_INVALID_UTF8, exactly if the text is not empty and does not start
 *     with a character
 *
 * ICU: uset_spanUTF8 of a frozen set. */
int64_t bks_frozen_span(const uint64_t *table, size_t count, const char *text, size_t size,
                        bool held);

/** Returns the offset of the longest suffix of a UTF-8 text whose characters are all in a frozen
 * set, or all outside it.
 *
 * It starts at a character boundary. An ill-formed sequence ends it too. It reads at most the four
 * bytes before the span, and none outside the text. Any words are accepted: see
 * bks_frozen_contains.
 *
 * @param table the words of the frozen set
 * @param count how many words there are
 * @param text the text in UTF-8, which need not end with NUL
 * @param size how many bytes the text has
 * @param held true: characters in the set; false: characters outside it
 * @return an offset in bytes; or BKS_INVALID_UTF8, exactly if the text is not empty and does not end
 *     with a character
 *
 * ICU: uset_spanBackUTF8 of a frozen set. */
int64_t bks_frozen_span_back(const uint64_t *table, size_t count, const char *text, size_t size,
                             bool held);

/** Returns the size of the longest prefix of a text whose characters are all in a frozen set, or all
 * outside it. The text may be ill-formed UTF-8.
 *
 * An ill-formed sequence counts as U+FFFD: it ends the span only if bks_frozen_contains of 0xFFFD is
 * not `held`. So spans with true and false in turn reach the end of any text. Any words are
 * accepted: see bks_frozen_contains.
 *
 * @param table the words of the frozen set
 * @param count how many words there are
 * @param text any bytes
 * @param size how many bytes the text has
 * @param held true: characters in the set; false: characters outside it
 * @return a number of bytes
 *
 * ICU: uset_spanUTF8 of a frozen set. */
size_t bks_frozen_span_lossy(const uint64_t *table, size_t count, const char *text, size_t size,
                             bool held);

/** Returns the offset of the longest suffix of a text whose characters are all in a frozen set, or
 * all outside it. The text may be ill-formed UTF-8.
 *
 * An ill-formed sequence counts as U+FFFD: it ends the span only if bks_frozen_contains of 0xFFFD is
 * not `held`. Any words are accepted: see bks_frozen_contains.
 *
 * @param table the words of the frozen set
 * @param count how many words there are
 * @param text any bytes
 * @param size how many bytes the text has
 * @param held true: characters in the set; false: characters outside it
 * @return an offset in bytes
 *
 * ICU: uset_spanBackUTF8 of a frozen set. */
size_t bks_frozen_span_back_lossy(const uint64_t *table, size_t count, const char *text,
                                  size_t size, bool held);

/** Returns the length of the longest prefix of a UTF-16 text whose code points are all in a frozen
 * set, or all outside it.
 *
 * A high surrogate and the low surrogate after it are one code point. Each other unit is a code
 * point of its own, even an unpaired surrogate. Any words are accepted: see bks_frozen_contains.
 *
 * @param table the words of the frozen set
 * @param count how many words there are
 * @param text the text in UTF-16
 * @param units how many 16-bit units it has
 * @param held true: characters in the set; false: characters outside it
 * @return a number of 16-bit units
 *
 * ICU: uset_span of a frozen set. */
size_t bks_frozen_span_utf16(const uint64_t *table, size_t count, const uint16_t *text,
                             size_t units, bool held);

/* ---- Unit tries ------------------------------------------------------------------------------ */
/* Maps from keys to numbers. Keys are lists of 16-bit units, mostly texts in UTF-16. They are read
 * in place from what ICU's UCharsTrieBuilder writes. `units` is `size` bytes at any address, two
 * for each unit, the low byte first; an odd last byte is ignored. The bytes are not validated, and
 * any bytes are accepted: if a unit is needed and missing, nothing matches, and if the units of a
 * value are cut off, the value is 0. */

/** Looks up a key.
 *
 * @param units the bytes of the unit trie, at any address
 * @param size how many bytes it has
 * @param key the key
 * @param count how many 16-bit units it has
 * @param value receives the key's value. It is unchanged if the key is not there
 * @return true if the key is there
 *
 * ICU: UCharsTrie::reset, next and getValue. */
bool bks_units_get(const void *units, size_t size, const uint16_t *key, size_t count,
                   int32_t *value);

/** Finds the longest key that is a prefix of a text, as in a dictionary.
 *
 * @param units the bytes of the unit trie, at any address
 * @param size how many bytes it has
 * @param text the text
 * @param count how many 16-bit units it has
 * @param value receives the key's value. It is unchanged if there is none
 * @return how many units the key has; or BKS_NO_KEY if no key is a prefix */
int64_t bks_units_longest(const void *units, size_t size, const uint16_t *text, size_t count,
                          int32_t *value);

/** Finds the longest key that is a prefix of a UTF-8 text.
 *
 * A key that ends within a character does not count. It reads the first character, and no more of
 * the text than some key continues with. An ill-formed sequence ends the text.
 *
 * @param units the bytes of the unit trie, at any address
 * @param size how many bytes it has
 * @param text the text in UTF-8, which need not end with NUL
 * @param text_size how many bytes the text has
 * @param value receives the key's value. It is unchanged on an error
 * @return how many bytes of the text the key takes; BKS_NO_KEY if no key is a prefix; BKS_INVALID_UTF8,
 *     exactly if the text is not empty and does not start with a character */
int64_t bks_units_longest_utf8(const void *units, size_t size, const char *text, size_t text_size,
                               int32_t *value);

/** Moves a cursor by one unit.
 *
 *     bks_cursor cursor = {0, 0};
 *     while (bks_units_step(units, size, &cursor, *text++) & 1) ..
 *
 * @param units the bytes of the unit trie, at any address
 * @param size how many bytes it has
 * @param cursor the position, which it changes
 * @param unit the unit
 * @return one of enum bks_step
 *
 * ICU: UCharsTrie::next. */
uint32_t bks_units_step(const void *units, size_t size, bks_cursor *cursor, uint16_t unit);

/** Finds the value of the key that ends at a cursor.
 *
 * @param units the bytes of the unit trie, at any address
 * @param size how many bytes it has
 * @param cursor a position in the unit trie
 * @param value receives the value. It is unchanged if no key ends there
 * @return true if a key ends there
 *
 * ICU: UCharsTrie::getValue. */
bool bks_units_value(const void *units, size_t size, const bks_cursor *cursor, int32_t *value);

/** Returns how many entries a unit trie has, and validates untrusted units.
 *
 * It visits each node twice, however many entries there are. So it takes time linear in the number
 * of units. Allocates with malloc while it runs.
 *
 * @param units the bytes of the unit trie, at any address
 * @param size how many bytes it has
 * @return a number of entries, at most 2^63 - 1; BKS_INVALID_TRIE if the units are not a trie; or
 *     BKS_NO_MEMORY */
int64_t bks_units_count(const void *units, size_t size);

/** Lists the entries of a unit trie in unit order.
 *
 * A text is a key in UTF-8, with each lone surrogate as U+FFFD. `words` receives the first entries:
 * as many as fit in `words` and whose texts fit in `texts`. The text of a word w is w.size bytes at
 * texts + w.start. Unless all fit, it does not return how many words it wrote: call it first with
 * room 0, or again with more. Allocates with malloc while it runs.
 *
 * 4 k + 1 untrusted units can have 2^k entries, and a listing takes time for all of them, however
 * small the buffers: call bks_units_count first. If the units are not a trie, the entries are those
 * of its nodes, as far as they can be read.
 *
 * @param units the bytes of the unit trie, at any address
 * @param size how many bytes it has
 * @param words receives the entries
 * @param words_room how many entries fit
 * @param texts receives the texts, one after another
 * @param texts_room how many bytes fit
 * @param texts_size receives how many bytes all texts take
 * @return how many entries there are; or BKS_NO_MEMORY, or BKS_TOO_LARGE if there are 2^63 entries
 *     or bytes, and nothing is then written
 *
 * ICU: UCharsTrie::Iterator. */
int64_t bks_units_list(const void *units, size_t size, bks_word *words, size_t words_room,
                       char *texts, size_t texts_room, size_t *texts_size);

/** Builds a unit trie from entries, in any order.
 *
 * The key of entry i is the next lengths[i] units of `keys`, which may be none, and its value is
 * values[i]. If the keys of E entries have U units, the unit trie takes at most 4 U + 32 E bytes,
 * and none if there is no entry. Allocates with malloc while it runs.
 *
 * The bytes are in `units` if all of them fit; otherwise `units` is unchanged: call it first with
 * room 0, or again with more.
 *
 * If no unit trie is built, it returns the first of these that applies: BKS_INVALID_ENTRIES, if
 * lengths_count is not values_count, or the lengths add up to more than keys_count; BKS_LONG_KEY;
 * BKS_SAME_KEY; BKS_TOO_LARGE, if 2 U + 16 E is above 0x7FFFFFFF; BKS_NO_MEMORY, which may come
 * before the last two.
 *
 * @param keys the units of all keys, one after another
 * @param keys_count how many units there are
 * @param lengths how many units each key has
 * @param lengths_count how many lengths there are
 * @param values the value of each key
 * @param values_count how many values there are
 * @param units receives the bytes of the unit trie
 * @param room how many bytes fit
 * @return how many bytes the unit trie takes, also if more than `room`; or one of enum bks_error
 *
 * ICU: UCharsTrieBuilder::add for each entry, and buildUnicodeString. */
int64_t bks_units_build(const uint16_t *keys, size_t keys_count, const size_t *lengths,
                        size_t lengths_count, const int32_t *values, size_t values_count,
                        void *units, size_t room);

/** Looks up a key in UTF-8: its UTF-16 units are looked up.
 *
 * @param units the bytes of the unit trie, at any address
 * @param size how many bytes it has
 * @param key the key in UTF-8
 * @param key_size how many bytes it has
 * @param value receives the key's value. It is unchanged if the key is not there
 * @return true if the key is there; false if it is not UTF-8 or not there */
bool bks_units_get_utf8(const void *units, size_t size, const char *key, size_t key_size,
                        int32_t *value);

/** Builds a unit trie from entries with keys in UTF-8, in any order.
 *
 * The key of entry i is the UTF-16 units of the next lengths[i] bytes of `keys`. It builds what
 * bks_units_build builds of these units, so at most 4 * keys_size + 32 * lengths_count bytes.
 * Allocates with malloc while it runs.
 *
 * The bytes are in `units` if all of them fit; otherwise `units` is unchanged: call it first with
 * room 0, or again with more.
 *
 * If no unit trie is built, it returns the first of these that applies: BKS_INVALID_ENTRIES, if
 * lengths_count is not values_count, or the lengths add up to more than keys_size; BKS_INVALID_UTF8, if
 * a key is not UTF-8 on its own; BKS_LONG_KEY; BKS_SAME_KEY; BKS_TOO_LARGE; BKS_NO_MEMORY, which
 * may come before the last three.
 *
 * @param keys the bytes of all keys, one after another
 * @param keys_size how many bytes there are
 * @param lengths how many bytes each key has
 * @param lengths_count how many lengths there are
 * @param values the value of each key
 * @param values_count how many values there are
 * @param units receives the bytes of the unit trie
 * @param room how many bytes fit
 * @return how many bytes the unit trie takes, also if more than `room`; or one of enum bks_error
 *
 * ICU: UCharsTrieBuilder::add for each entry, and buildUnicodeString. */
int64_t bks_units_build_utf8(const char *keys, size_t keys_size, const size_t *lengths,
                             size_t lengths_count, const int32_t *values, size_t values_count,
                             void *units, size_t room);

/** Finds all keys that are prefixes of a text, the shortest first.
 *
 * It writes as many as fit, and reads no more of the text than some key continues with.
 *
 * @param units the bytes of the unit trie, at any address
 * @param size how many bytes it has
 * @param text the text
 * @param count how many 16-bit units it has
 * @param found receives the keys, with lengths in units
 * @param room how many keys fit
 * @return how many keys there are, also if more than `room`
 *
 * ICU: UCharsTrie::next and getValue in a loop, while USTRINGTRIE_HAS_NEXT. */
size_t bks_units_prefixes(const void *units, size_t size, const uint16_t *text, size_t count,
                          bks_prefix *found, size_t room);

/** Finds all keys that are prefixes of a UTF-8 text, the shortest first.
 *
 * It writes as many as fit. A key that ends within a character does not count. It reads the first
 * character, and no more of the text than some key continues with. An ill-formed sequence ends the
 * text.
 *
 * @param units the bytes of the unit trie, at any address
 * @param size how many bytes it has
 * @param text the text in UTF-8, which need not end with NUL
 * @param text_size how many bytes the text has
 * @param found receives the keys, with lengths in bytes
 * @param room how many keys fit
 * @return how many keys there are, also if more than `room`; or BKS_INVALID_UTF8, exactly if the text is
 *     not empty and does not start with a character, and `found` is then unchanged */
int64_t bks_units_prefixes_utf8(const void *units, size_t size, const char *text, size_t text_size,
                                bks_prefix *found, size_t room);

/** Writes the units that can come next in some key.
 *
 * It writes as many as fit. If the units are a trie, they ascend, each once. If not, they are those
 * of the entries of a branch, as far as the entries are there. Allocates with malloc while it runs.
 *
 * @param units the bytes of the unit trie, at any address
 * @param size how many bytes it has
 * @param cursor a position in the unit trie
 * @param next receives the units
 * @param room how many units fit
 * @return how many units there are, at most 65,536; or BKS_NO_MEMORY
 *
 * ICU: UCharsTrie::getNextUChars. */
int64_t bks_units_next(const void *units, size_t size, const bks_cursor *cursor, uint16_t *next,
                       size_t room);

/** Returns whether all keys that start with the units so far have one value, the key of just these
 * units included.
 *
 * It visits each node ahead once. Allocates with malloc while it runs.
 *
 * @param units the bytes of the unit trie, at any address
 * @param size how many bytes it has
 * @param cursor a position in the unit trie
 * @param value receives that value. It is unchanged if there is none
 * @return 1 if they have one value; 0 if their values differ, if there is no such key, or if the
 *     units are not a trie from here on; or BKS_NO_MEMORY
 *
 * ICU: UCharsTrie::hasUniqueValue, which in ICU 72 is wrong for branches of six units and more. */
int64_t bks_units_unique(const void *units, size_t size, const bks_cursor *cursor, int32_t *value);

/** Lists the entries whose keys start with a text in UTF-8, in unit order, page by page.
 *
 * It leaves out the first `skipped` entries, writes as many as fit, and stops there. A text is a
 * whole key, as in bks_units_list. Allocates with malloc while it runs.
 *
 * If it returns `words_room`, more entries may follow: call it again with `skipped` larger by that
 * number. If it returns less and *texts_size is at most texts_room, no entry is left. If it returns
 * less and *texts_size is above texts_room, the next text did not fit. *texts_size then includes
 * that text, so texts of that size hold one more entry:
 *     while ((n = bks_units_list_below(units, size, "ab", 2, skipped, words, 64, texts, room,
 *                                      &used)) > 0 || (n == 0 && used > room))
 *         if (n > 0) skipped += (uint64_t)n; // and use the words; else get `used` bytes of room
 *
 * A call takes time for the entries that it skips and writes, not for those that follow. For each
 * of them it opens at most as many nodes as there are units, also of an untrusted unit trie.
 *
 * @param units the bytes of the unit trie, at any address
 * @param size how many bytes it has
 * @param prefix the start of the keys, in UTF-8
 * @param prefix_size how many bytes it has
 * @param skipped how many entries are left out
 * @param words receives the entries
 * @param words_room how many entries fit
 * @param texts receives the texts, one after another
 * @param texts_room how many bytes fit
 * @param texts_size receives how many bytes their texts take
 * @return how many entries it wrote; or BKS_INVALID_UTF8 or BKS_NO_MEMORY, and nothing is then written
 *
 * ICU: UCharsTrie::Iterator of a trie that is not at its root. */
int64_t bks_units_list_below(const void *units, size_t size, const char *prefix, size_t prefix_size,
                             uint64_t skipped, bks_word *words, size_t words_room, char *texts,
                             size_t texts_room, size_t *texts_size);

/* ---- Sets of code points and strings --------------------------------------------------------- */
/** Returns whether a set of code points and strings contains a text.
 *
 * Such a set is a frozen set and a unit trie whose keys are the strings: bks_set_freeze writes its
 * words, bks_units_build or bks_units_build_utf8 its units. The values of the keys are not used. A
 * text of exactly one character is a member if the frozen set contains it. Any other text, even the
 * empty one, is a member if it is a key; keys of exactly one character do not count. Any words and
 * any units are accepted: see bks_frozen_contains and bks_units_get_utf8.
 *
 * @param table the words of the frozen set
 * @param count how many words there are
 * @param units the bytes of the unit trie, at any address
 * @param size how many bytes it has
 * @param text the text in UTF-8, which need not end with NUL
 * @param text_size how many bytes the text has
 * @return true if the set contains the text; false if not, or if the text is not UTF-8
 *
 * ICU: uset_contains, uset_containsString. */
bool bks_text_set_contains(const uint64_t *table, size_t count, const void *units, size_t size,
                           const char *text, size_t text_size);

/** Finds the longest member of a set of code points and strings that is a prefix of a UTF-8 text.
 *
 * The set is that of bks_text_set_contains. The empty string does not count. It reads the first
 * character, and no more of the text than some string continues with. An ill-formed sequence ends
 * the text.
 *
 * @param table the words of the frozen set
 * @param count how many words there are
 * @param units the bytes of the unit trie, at any address
 * @param size how many bytes it has
 * @param text the text in UTF-8, which need not end with NUL
 * @param text_size how many bytes the text has
 * @return how many bytes of the text the member takes; 0 if no member is a prefix; or
 *     BKS_INVALID_UTF8, exactly if the text is not empty and does not start with a character */
int64_t bks_text_set_longest(const uint64_t *table, size_t count, const void *units, size_t size,
                             const char *text, size_t text_size);

/** Returns the size of the span at the start of a UTF-8 text over a set of code points and strings.
 *
 * The set is that of bks_text_set_contains. If `held` is true, the span goes on by the longest
 * member at each position, until there is none. If `held` is false, it goes on by one character at
 * each position, until a member starts there. The empty string does not count. With the members
 * "a", "ab" and "bc", the span of "abc" is "ab", although "a" and "bc" are more. An ill-formed
 * sequence ends a span.
 *
 * @param table the words of the frozen set
 * @param count how many words there are
 * @param units the bytes of the unit trie, at any address
 * @param size how many bytes it has
 * @param text the text in UTF-8, which need not end with NUL
 * @param text_size how many bytes the text has
 * @param held true: members; false: characters with which no member starts
 * @return a number of bytes; or BKS_INVALID_UTF8, exactly if the text is not empty and does not start
 *     with a character
 *
 * ICU: uset_spanUTF8 with USET_SPAN_SIMPLE, or USET_SPAN_NOT_CONTAINED if `held` is false; it takes an
 * ill-formed sequence for U+FFFD. */
int64_t bks_text_set_span(const uint64_t *table, size_t count, const void *units, size_t size,
                          const char *text, size_t text_size, bool held);

/* ---- Inline functions ------------------------------------------------------------------------ */
/* They read without a test what the proved functions guarantee. The README of
 * crates/icu_collections_c lists each such read and the guarantee. */
#ifdef __cplusplus
#pragma GCC diagnostic push
#pragma GCC diagnostic ignored "-Wold-style-cast" /* C has no others */
#endif

/** Opens the trie at the start of the bytes, of either type and any width.
 *
 * The bytes after the trie are not read; trie->size says how many bytes it takes. With a fault,
 * *trie has no cells and its numbers are 0. This is bks_trie_open for a *trie that may be
 * uninitialized: it first makes it a valid bks_trie, as the proof of bks_trie_open assumes.
 *
 * @param trie receives the trie
 * @param bytes a trie in ICU's binary form, at any address. It has to stay there, unchanged, while
 *     the trie is used
 * @param size how many bytes there are
 * @return BKS_OK, or the first fault in the order of enum bks_error
 *
 * ICU: ucptrie_openFromBinary. */
static inline uint32_t bks_open(bks_trie *trie, const void *bytes, size_t size) {
    memset(trie, 0, sizeof *trie);
    trie->index = (const uint8_t *)bytes;
    trie->values = (const uint8_t *)bytes;
    return bks_trie_open(bytes, size, trie);
}

/** Returns the index of the value of a code point in the data, in cells: for bks_get8 and its like.
 *
 * bks_trie_open has checked that the index has the cell of c, and the data the cell that it leads
 * to.
 *
 * @param trie a trie that bks_open opened
 * @param c a code point below the fast limit
 * @return an index below the number of values */
static inline size_t bks_fast_place(const bks_trie *trie, uint32_t c) {
    uint16_t block;
    memcpy(&block, trie->index + 2 * (size_t)(c >> 6), sizeof block);
    return (size_t)block + (c & 63);
}

/** Returns whether a code point is at or above the high start.
 *
 * In an open trie all of these have one value, that of the last cell but one, and there are at
 * least 64 cells.
 *
 * @param trie a trie that bks_open opened
 * @param c the code point, any number
 * @return true if it is; false above 0x10FFFF */
static inline bool bks_is_high(const bks_trie *trie, uint32_t c) {
    return c >= trie->high_start && c <= 0x10FFFF && trie->fast_limit != 0;
}

/** Returns the index of the value of a code point in the data, in cells, through the stages of the
 * index.
 *
 * Each read is tested.
 *
 * @param trie a trie that bks_open opened
 * @param c a code point from the fast limit on and below the high start
 * @return an index; SIZE_MAX if the trie lacks a cell of the index, if the offset has 18 bits, and
 *     above 0x10FFFF */
static inline size_t bks_small_place(const bks_trie *trie, uint32_t c) {
    size_t cells = trie->index_size / 2, low_cells = cells < 0x8000 ? cells : 0x8000;
    size_t place = (c >> 14) + (trie->fast_limit == 0x1000 ? 64 : 1020);
    uint16_t cell;
    if (c > 0x10FFFF || place >= cells) return SIZE_MAX;
    memcpy(&cell, trie->index + 2 * place, sizeof cell);
    place = (size_t)cell + (c >> 9 & 31);
    if (place >= cells) return SIZE_MAX;
    memcpy(&cell, trie->index + 2 * place, sizeof cell);
    place = (size_t)cell + (c >> 4 & 31);
    if (place >= low_cells) return SIZE_MAX;
    memcpy(&cell, trie->index + 2 * place, sizeof cell);
    return (size_t)cell + (c & 15);
}

/** Returns the value of a code point, in a trie with values of 8 bits: bks_trie8_get, inline.
 *
 * Two reads below the fast limit, four up to the high start, and then one; elsewhere it calls the
 * library. Unspecified (but memory-safe) for a trie of another width.
 *
 * @param trie a trie that bks_open opened
 * @param c the code point, any number
 * @return its value; the error value if c is above 0x10FFFF
 *
 * ICU: ucptrie_get. */
static inline uint8_t bks_get8(const bks_trie *trie, uint32_t c) {
    if (c < trie->fast_limit) return trie->values[bks_fast_place(trie, c)];
    if (c < trie->high_start) {
        size_t place = bks_small_place(trie, c);
        return place < trie->values_size ? trie->values[place] : bks_trie8_get(trie, c);
    }
    if (bks_is_high(trie, c)) return trie->values[trie->values_size - 2];
    return bks_trie8_get(trie, c);
}

/** Returns the value of a code point, in a trie with values of 16 bits: bks_trie16_get, inline.
 *
 * Two reads below the fast limit, four up to the high start, and then one; elsewhere it calls the
 * library. For a trie of another width it calls the library, which reads only inside the trie.
 *
 * @param trie a trie that bks_open opened
 * @param c the code point, any number
 * @return its value; the error value if c is above 0x10FFFF
 *
 * ICU: ucptrie_get. */
static inline uint16_t bks_get16(const bks_trie *trie, uint32_t c) {
    uint16_t value;
    size_t place;
    if (trie->width != sizeof value) return bks_trie16_get(trie, c);
    if (c < trie->fast_limit) {
        place = bks_fast_place(trie, c);
    } else if (c < trie->high_start) {
        place = bks_small_place(trie, c);
        if (place >= trie->values_size / sizeof value) return bks_trie16_get(trie, c);
    } else {
        if (!bks_is_high(trie, c)) return bks_trie16_get(trie, c);
        place = trie->values_size / sizeof value - 2;
    }
    memcpy(&value, trie->values + sizeof value * place, sizeof value);
    return value;
}

/** Returns the value of a code point, in a trie with values of 32 bits: bks_trie32_get, inline.
 *
 * Two reads below the fast limit, four up to the high start, and then one; elsewhere it calls the
 * library. For a trie of another width it calls the library, which reads only inside the trie.
 *
 * @param trie a trie that bks_open opened
 * @param c the code point, any number
 * @return its value; the error value if c is above 0x10FFFF
 *
 * ICU: ucptrie_get. */
static inline uint32_t bks_get32(const bks_trie *trie, uint32_t c) {
    uint32_t value;
    size_t place;
    if (trie->width != sizeof value) return bks_trie32_get(trie, c);
    if (c < trie->fast_limit) {
        place = bks_fast_place(trie, c);
    } else if (c < trie->high_start) {
        place = bks_small_place(trie, c);
        if (place >= trie->values_size / sizeof value) return bks_trie32_get(trie, c);
    } else {
        if (!bks_is_high(trie, c)) return bks_trie32_get(trie, c);
        place = trie->values_size / sizeof value - 2;
    }
    memcpy(&value, trie->values + sizeof value * place, sizeof value);
    return value;
}

/** Reads the next character of a text that may be ill-formed UTF-8: for bks_next8_utf8 and its like.
 *
 * @param text any bytes
 * @param size how many bytes the text has
 * @param at the offset of the character in bytes; becomes the offset after it, or after the
 *     ill-formed part. It is unchanged, and no byte is read, if it is not below `size`
 * @return the code point; UINT32_MAX for an ill-formed part, and if there is no character
 *
 * ICU: U8_NEXT. */
static inline uint32_t bks_read_utf8(const char *text, size_t size, size_t *at) {
    uint32_t c, least = 0x80, most = 0xBF;
    size_t i = *at, trails;
    if (i >= size) return UINT32_MAX;
    c = (uint8_t)text[i++];
    *at = i;
    if (c < 0x80) return c;
    if (c < 0xC2 || c > 0xF4) return UINT32_MAX;
    if (c < 0xE0) {
        c &= 0x1F, trails = 1;
    } else if (c < 0xF0) {
        if (c == 0xE0) least = 0xA0;
        if (c == 0xED) most = 0x9F;
        c &= 0x0F, trails = 2;
    } else {
        if (c == 0xF0) least = 0x90;
        if (c == 0xF4) most = 0x8F;
        c &= 0x07, trails = 3;
    }
    for (; trails > 0; trails--, least = 0x80, most = 0xBF) {
        uint32_t trail = i < size ? (uint8_t)text[i] : 0;
        if (trail < least || trail > most) {
            *at = i;
            return UINT32_MAX;
        }
        c = c << 6 | (trail & 0x3F);
        i++;
    }
    *at = i;
    return c;
}

/** Reads the next code point of a text in UTF-16: for bks_next8_utf16 and its like.
 *
 * @param text the units, in any order
 * @param count how many units there are
 * @param at the index of the code point; becomes the index after it. It is unchanged, and no unit is
 *     read, if it is not below `count`
 * @return the code point, which is a surrogate if it is not part of a pair; UINT32_MAX if there is
 *     none
 *
 * ICU: U16_NEXT. */
static inline uint32_t bks_read_utf16(const uint16_t *text, size_t count, size_t *at) {
    uint32_t c;
    size_t i = *at;
    if (i >= count) return UINT32_MAX;
    c = text[i++];
    if (c >> 10 == 0x36 && i < count && text[i] >> 10 == 0x37)
        c = 0x10000 + ((c & 0x3FF) << 10 | (uint32_t)(text[i++] & 0x3FF));
    *at = i;
    return c;
}

/** Returns the value of the next character of a text that may be ill-formed UTF-8, in a trie with
 * values of 8 bits, inline.
 *
 * An ill-formed part gets the error value: each part that the Unicode Standard replaces by one
 * U+FFFD. For the values of a whole text, bks_trie8_copy_utf8 is faster. Unspecified (but
 * memory-safe) for a trie of another width.
 *
 * @param trie a trie that bks_open opened
 * @param text any bytes
 * @param size how many bytes the text has
 * @param at the offset of the character in bytes; becomes the offset after it, or after the
 *     ill-formed part. It is unchanged, and no byte is read, if it is not below `size`
 * @param c receives the code point; 0xFFFD for an ill-formed part, and if there is no character
 * @return its value; the error value for an ill-formed part, and if there is no character
 *
 * ICU: UCPTRIE_FAST_U8_NEXT. */
static inline uint8_t bks_next8_utf8(const bks_trie *trie, const char *text, size_t size,
                                     size_t *at, uint32_t *c) {
    uint32_t found = bks_read_utf8(text, size, at);
    *c = found <= 0x10FFFF ? found : 0xFFFD;
    return bks_get8(trie, found);
}

/** Returns the value of the next character of a text that may be ill-formed UTF-8, in a trie with
 * values of 16 bits, inline.
 *
 * An ill-formed part gets the error value: each part that the Unicode Standard replaces by one
 * U+FFFD. For the values of a whole text, bks_trie16_copy_utf8 is faster. Unspecified (but
 * memory-safe) for a trie of another width.
 *
 * @param trie a trie that bks_open opened
 * @param text any bytes
 * @param size how many bytes the text has
 * @param at the offset of the character in bytes; becomes the offset after it, or after the
 *     ill-formed part. It is unchanged, and no byte is read, if it is not below `size`
 * @param c receives the code point; 0xFFFD for an ill-formed part, and if there is no character
 * @return its value; the error value for an ill-formed part, and if there is no character
 *
 * ICU: UCPTRIE_FAST_U8_NEXT. */
static inline uint16_t bks_next16_utf8(const bks_trie *trie, const char *text, size_t size,
                                     size_t *at, uint32_t *c) {
    uint32_t found = bks_read_utf8(text, size, at);
    *c = found <= 0x10FFFF ? found : 0xFFFD;
    return bks_get16(trie, found);
}

/** Returns the value of the next character of a text that may be ill-formed UTF-8, in a trie with
 * values of 32 bits, inline.
 *
 * An ill-formed part gets the error value: each part that the Unicode Standard replaces by one
 * U+FFFD. For the values of a whole text, bks_trie32_copy_utf8 is faster. Unspecified (but
 * memory-safe) for a trie of another width.
 *
 * @param trie a trie that bks_open opened
 * @param text any bytes
 * @param size how many bytes the text has
 * @param at the offset of the character in bytes; becomes the offset after it, or after the
 *     ill-formed part. It is unchanged, and no byte is read, if it is not below `size`
 * @param c receives the code point; 0xFFFD for an ill-formed part, and if there is no character
 * @return its value; the error value for an ill-formed part, and if there is no character
 *
 * ICU: UCPTRIE_FAST_U8_NEXT. */
static inline uint32_t bks_next32_utf8(const bks_trie *trie, const char *text, size_t size,
                                     size_t *at, uint32_t *c) {
    uint32_t found = bks_read_utf8(text, size, at);
    *c = found <= 0x10FFFF ? found : 0xFFFD;
    return bks_get32(trie, found);
}

/** Returns the value of the next code point of a text in UTF-16, in a trie with values of 8 bits,
 * inline.
 *
 * A high surrogate and the low surrogate after it are one code point. Each other unit is a code
 * point of its own, even an unpaired surrogate. Unspecified (but memory-safe) for a trie of another
 * width.
 *
 * @param trie a trie that bks_open opened
 * @param text the units, in any order
 * @param count how many units there are
 * @param at the index of the code point; becomes the index after it. It is unchanged, and no unit is
 *     read, if it is not below `count`
 * @param c receives the code point; 0xFFFD if there is none
 * @return its value; the error value if there is none
 *
 * ICU: UCPTRIE_FAST_U16_NEXT. */
static inline uint8_t bks_next8_utf16(const bks_trie *trie, const uint16_t *text, size_t count,
                                      size_t *at, uint32_t *c) {
    uint32_t found = bks_read_utf16(text, count, at);
    *c = found <= 0x10FFFF ? found : 0xFFFD;
    return bks_get8(trie, found);
}

/** Returns the value of the next code point of a text in UTF-16, in a trie with values of 16 bits,
 * inline.
 *
 * A high surrogate and the low surrogate after it are one code point. Each other unit is a code
 * point of its own, even an unpaired surrogate. Unspecified (but memory-safe) for a trie of another
 * width.
 *
 * @param trie a trie that bks_open opened
 * @param text the units, in any order
 * @param count how many units there are
 * @param at the index of the code point; becomes the index after it. It is unchanged, and no unit is
 *     read, if it is not below `count`
 * @param c receives the code point; 0xFFFD if there is none
 * @return its value; the error value if there is none
 *
 * ICU: UCPTRIE_FAST_U16_NEXT. */
static inline uint16_t bks_next16_utf16(const bks_trie *trie, const uint16_t *text, size_t count,
                                      size_t *at, uint32_t *c) {
    uint32_t found = bks_read_utf16(text, count, at);
    *c = found <= 0x10FFFF ? found : 0xFFFD;
    return bks_get16(trie, found);
}

/** Returns the value of the next code point of a text in UTF-16, in a trie with values of 32 bits,
 * inline.
 *
 * A high surrogate and the low surrogate after it are one code point. Each other unit is a code
 * point of its own, even an unpaired surrogate. Unspecified (but memory-safe) for a trie of another
 * width.
 *
 * @param trie a trie that bks_open opened
 * @param text the units, in any order
 * @param count how many units there are
 * @param at the index of the code point; becomes the index after it. It is unchanged, and no unit is
 *     read, if it is not below `count`
 * @param c receives the code point; 0xFFFD if there is none
 * @return its value; the error value if there is none
 *
 * ICU: UCPTRIE_FAST_U16_NEXT. */
static inline uint32_t bks_next32_utf16(const bks_trie *trie, const uint16_t *text, size_t count,
                                      size_t *at, uint32_t *c) {
    uint32_t found = bks_read_utf16(text, count, at);
    *c = found <= 0x10FFFF ? found : 0xFFFD;
    return bks_get32(trie, found);
}

/** Returns whether a frozen set contains a code point: bks_frozen_contains, inline.
 *
 * Three reads, all inside the words. For words that bks_set_freeze did not write, such as untrusted
 * ones, use bks_frozen_contains.
 *
 * @param table the words that bks_set_freeze wrote
 * @param c the code point, any number
 * @return true if the set contains c; false above 0x10FFFF
 *
 * ICU: uset_contains. */
static inline bool bks_frozen_has(const uint64_t *table, uint32_t c) {
    uint32_t block = c >> 10, last = (uint32_t)table[0] - 1;
    if (c >= 0x110000) return false;
    if (block > last) block = last;
    return table[(size_t)(uint32_t)table[block] + (c >> 6 & 15)] >> (c & 63) & 1;
}

#ifdef __cplusplus
#pragma GCC diagnostic pop
}
#endif

#endif
