// The functions of bench/ours (ours_) and of bench/peer (rust_). A slice is a pointer and a
// length.
#pragma once
#include <cstddef>
#include <cstdint>

struct Bytes {
    const uint8_t *start;
    size_t len;
};

// The parts of a trie, with the cells of index and data as bytes.
struct TrieParts {
    Bytes index, data;
    uint32_t high_start, data_null_offset, null_value;
    uint16_t index3_null_offset;
    bool is_fast;
};

// The code points from `start` to `end`, both inclusive, have this value.
struct Row {
    uint32_t start, end, value;
};

struct Sizes {
    size_t index, data;
    uint32_t high_start, data_null_offset, null_value;
};

extern "C" {
typedef uint64_t PointsCall(const TrieParts *, const uint32_t *points, size_t, size_t turns);
typedef bool AnswersCall(const TrieParts *, const uint32_t *points, size_t, uint32_t *answers,
                         size_t);
typedef uint64_t TextCall(const TrieParts *, const uint8_t *text, size_t, size_t turns);
typedef uint64_t CopyCall(const TrieParts *, const uint8_t *text, size_t, uint8_t *values, size_t,
                          size_t turns);
typedef uint64_t RangesCall(const TrieParts *, size_t turns);
typedef bool BuildCall(bool is_fast, const Row *, size_t, uint32_t error, Sizes *,
                       uint32_t *answers, size_t);
PointsCall ours_get_8, ours_get_16, ours_get_32, rust_get_8, rust_get_16, rust_get_32;
PointsCall ours_typed_8, ours_typed_16, ours_typed_32, rust_typed_8, rust_typed_16, rust_typed_32;
AnswersCall ours_answers_8, ours_answers_16, ours_answers_32, rust_answers_8, rust_answers_16,
    rust_answers_32;
TextCall ours_text_8, ours_values_8, ours_bytes_8, rust_text_8, ours_indices_8, rust_indices_8,
    ours_find_8, ours_span_8, rust_find_8;
CopyCall ours_copy_8, rust_copy_8;
RangesCall ours_ranges_8, ours_ranges_16, ours_ranges_32, ours_range_8, rust_ranges_8,
    rust_ranges_16, rust_ranges_32;
BuildCall ours_build_8, ours_build_16, ours_build_32;
uint64_t ours_open_8(const uint8_t *, size_t, size_t turns);
uint64_t ours_try_new_8(const TrieParts *, size_t turns), rust_try_new_8(const TrieParts *, size_t turns);

#define BOTH(name)                                                                                \
    uint64_t name##_setfor_8(const TrieParts *, uint8_t value, size_t turns);                     \
    uint64_t name##_contains(const uint8_t *, size_t, const uint32_t *points, size_t);            \
    uint64_t name##_contains_text(const uint8_t *, size_t, const uint8_t *text, size_t,           \
                                  size_t turns);                                                  \
    uint64_t name##_position(const uint8_t *, size_t, const uint32_t *points, size_t);            \
    uint64_t name##_set_iter(const uint8_t *, size_t, size_t turns);                              \
    uint64_t name##_set_iter_chars(const uint8_t *, size_t, size_t turns);                        \
    uint64_t name##_contains_set(const uint8_t *, size_t, const uint8_t *, size_t, size_t turns); \
    uint64_t name##_blend(const uint8_t *, size_t, const uint8_t *, size_t, uint32_t how,         \
                          size_t turns);                                                          \
    uint64_t name##_set_ranges(const uint32_t *starts, size_t, const uint32_t *ends, size_t,      \
                               size_t turns);                                                     \
    uint64_t name##_c16_look(const uint8_t *, size_t, const uint16_t *keys, size_t,               \
                             const uint32_t *ends, size_t, bool along);                           \
    uint64_t name##_c16_iter(const uint8_t *, size_t);                                            \
    size_t name##_c16_keys(const uint8_t *, size_t, uint8_t *bytes, size_t);                      \
    uint64_t name##_read_8(const uint8_t *, size_t);                                              \
    uint64_t name##_read_16(const uint8_t *, size_t);                                             \
    uint64_t name##_read_32(const uint8_t *, size_t);                                             \
    uint64_t name##_read_characters(const uint8_t *, size_t);                                     \
    uint64_t name##_read_places(const uint8_t *, size_t, const uint32_t *places, size_t);         \
    uint64_t name##_equal_16(const uint8_t *, size_t, const uint8_t *, size_t);                   \
    uint64_t name##_search_16(const uint8_t *, size_t, const uint16_t *wanted, size_t);           \
    uint64_t name##_search_32(const uint8_t *, size_t, const uint32_t *wanted, size_t);
BOTH(ours)
BOTH(rust)
#undef BOTH

uint64_t ours_frozen_contains(const uint8_t *, size_t, const uint32_t *points, size_t, size_t turns);
uint64_t ours_frozen_contains_range(const uint8_t *, size_t, const uint32_t *starts, size_t,
                                    const uint32_t *lasts, size_t, size_t turns);
uint64_t ours_frozen_text(const uint8_t *, size_t, const uint8_t *text, size_t, size_t turns);
uint64_t ours_span(const uint8_t *, size_t, const uint8_t *text, size_t, size_t turns);
uint64_t ours_frozen_span(const uint8_t *, size_t, const uint8_t *text, size_t, size_t turns);
uint64_t ours_freeze(const uint8_t *, size_t, size_t turns);
uint64_t ours_c16_entries(const uint8_t *, size_t);
uint64_t ours_c16_longest(const uint8_t *, size_t, const uint16_t *text, size_t);
size_t ours_c16_build(const uint16_t *keys, size_t, const uint32_t *ends, size_t,
                      const int32_t *values, size_t, uint16_t *units, size_t);
}

// Mixes one more number into `sum`, as ours and the peer do.
static inline uint64_t mixed(uint64_t sum, uint32_t number) {
    return (sum ^ number) * 0x100000001B3u;
}
