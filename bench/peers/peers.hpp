// Rows of any number of libraries, and the subjects.
#pragma once
#include "../driver/bench.hpp"

// One library's part of a row.
struct Part {
    std::string library;
    Call work;
};

// Compares the results, times the parts in turns, and prints the least time but one of each, in
// ns per one of `each`.
void row_of(const std::string &kernel, const std::string &data, double each,
            const std::vector<Part> &parts);

void compare_categories();
void compare_words();
