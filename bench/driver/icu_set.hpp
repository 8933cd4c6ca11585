// Sets of code points in each library's representation: some of the general categories, and one
// block.
#pragma once
#include "bench.hpp"
#include "data.hpp"
#include <unicode/uniset.h>

struct Set {
    std::string name;
    std::vector<uint32_t> starts, ends;
    // The boundaries, three bytes each.
    std::vector<uint8_t> bytes;
    icu::UnicodeSet set, frozen;
};

// The set of these code points, and its frozen copy. Its name ends in its number of ranges.
Set set_of(const std::string &name, const std::vector<bool> &held);

// Letters, marks, unassigned code points, and one block of Han.
const std::vector<Set> &all_sets();

// No code points.
Set empty_set();

// Adds to `sum` the number of characters of a text that are in the set. It is not inlined, like the
// loops of the other two libraries.
uint64_t add_held(const icu::UnicodeSet &set, const std::string &text, uint64_t sum);

// The characters of a text that are in the set.
std::string held_text(const Set &s, const Text &text);

size_t count_of_characters(const std::string &text);
