// What both programs share, this benchmark and bench/peers.
#include "bench.hpp"
#include <algorithm>
#include <cstdio>
#include <cstdlib>
#include <time.h>

using std::string;
using std::vector;

static vector<string> words;

void fail(const string &what) {
    fprintf(stderr, "bench: %s\n", what.c_str());
    exit(1);
}

static bool starts_with(const string &kernel, const string &word) {
    return kernel.compare(0, word.size(), word) == 0;
}

void want(const vector<string> &all, const vector<string> &kernels) {
    words = all;
    for (const string &word : words) {
        auto named = [&](const string &kernel) { return starts_with(kernel, word); };
        if (!std::any_of(kernels.begin(), kernels.end(), named))
            fail("no kernel starts with " + word);
    }
}

bool wanted(const string &kernel) {
    auto named = [&](const string &word) { return starts_with(kernel, word); };
    return words.empty() || std::any_of(words.begin(), words.end(), named);
}

double seconds() {
    timespec t;
    clock_gettime(CLOCK_PROCESS_CPUTIME_ID, &t);
    return t.tv_sec + 1e-9 * t.tv_nsec;
}

uint32_t random_number(uint32_t below) {
    static uint64_t state = 1;
    state = state * 6364136223846793005u + 1442695040888963407u;
    return (state >> 33) % below;
}
