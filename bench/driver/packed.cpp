// Packed vectors compared with loops over slices in plain Rust. ICU has no packed vectors.
#include "bench.hpp"
#include "calls.hpp"
#include <algorithm>
#include <unicode/utypes.h>

using std::string;
using std::vector;

enum { NUMBERS = 100000, PLACES = 4096 };

static vector<uint8_t> random_bytes(size_t count) {
    vector<uint8_t> bytes(count);
    for (auto &byte : bytes) byte = random_number(256);
    return bytes;
}

static vector<uint8_t> random_characters(size_t count) {
    vector<uint8_t> bytes;
    while (bytes.size() < 3 * count) {
        const uint32_t c = random_number(0x110000);
        if (!U_IS_SURROGATE(c))
            for (int i = 0; i < 3; i++) bytes.push_back(c >> 8 * i);
    }
    return bytes;
}

template <typename Of>
static void read(const string &data, double each, Of *ours, Of *rust,
                 const vector<uint8_t> &bytes) {
    row(
        "packed_read", data, each, [&] { return ours(PARTS(bytes)); },
        [&] { return rust(PARTS(bytes)); }, nullptr);
}

static void reads() {
    read("u8", NUMBERS, ours_read_8, rust_read_8, random_bytes(NUMBERS));
    read("u16", NUMBERS, ours_read_16, rust_read_16, random_bytes(2 * NUMBERS));
    read("u32", NUMBERS, ours_read_32, rust_read_32, random_bytes(4 * NUMBERS));
    read("char-parsed", NUMBERS, ours_read_characters, rust_read_characters,
         random_characters(NUMBERS));
    const vector<uint8_t> few = random_bytes(2 * PLACES), many = random_bytes(2 * NUMBERS),
                          same = many;
    vector<uint32_t> places(NUMBERS);
    for (auto &place : places) place = random_number(PLACES);
    row(
        "packed_read", "u16-any-place", NUMBERS,
        [&] { return ours_read_places(PARTS(few), PARTS(places)); },
        [&] { return rust_read_places(PARTS(few), PARTS(places)); }, nullptr);
    row(
        "packed_read", "u16-equal", NUMBERS,
        [&] { return ours_equal_16(PARTS(many), PARTS(same)); },
        [&] { return rust_equal_16(PARTS(many), PARTS(same)); }, nullptr);
}

// Ascending numbers, each `step` above the last, and numbers to search for, of which some are
// there.
template <typename T, typename Of>
static void search(const string &data, size_t count, uint32_t step, Of *ours, Of *rust) {
    vector<T> numbers(count), wanted_numbers(PLACES);
    for (size_t i = 0; i < count; i++) numbers[i] = step * i;
    for (auto &number : wanted_numbers) number = random_number(step * count);
    const uint8_t *bytes = reinterpret_cast<const uint8_t *>(numbers.data());
    const size_t size = numbers.size() * sizeof(T);
    row(
        "packed_search", data + "-" + std::to_string(count), PLACES,
        [&] { return ours(bytes, size, PARTS(wanted_numbers)); },
        [&] { return rust(bytes, size, PARTS(wanted_numbers)); }, nullptr);
}

void packed() {
    if (wanted("packed_read")) reads();
    if (!wanted("packed_search")) return;
    search<uint16_t>("u16", 64, 3, ours_search_16, rust_search_16);
    search<uint16_t>("u16", 4096, 3, ours_search_16, rust_search_16);
    search<uint32_t>("u32", 64, 3, ours_search_32, rust_search_32);
    search<uint32_t>("u32", 4096, 3, ours_search_32, rust_search_32);
    search<uint32_t>("u32", 100000, 3, ours_search_32, rust_search_32);
}
