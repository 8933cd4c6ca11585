// The program: peers [KERNEL..]. It prints lines of tab-separated words, which report.py reads:
// `time KERNEL DATA LIBRARY NS`, and what the tables and the lists of words are.
#include "peers.hpp"
#include <algorithm>
#include <cstdio>
#include <glib.h>
#include <unicode/uversion.h>
#include <unistring/version.h>
#include <utf8proc.h>

using std::string;
using std::vector;

enum { LEAST_ROUNDS = 10, MOST_ROUNDS = 1000 };
// A row takes about this many seconds.
static const double ROW_SECONDS = 0.5;

// Returns the processor time of a part.
static double time_of(const string &row, const Part &part, uint64_t answer) {
    const double start = seconds();
    const uint64_t other = part.work();
    const double taken = seconds() - start;
    if (other != answer) fail(row + ": " + part.library + " has other results");
    return taken;
}

void row_of(const string &kernel, const string &data, double each, const vector<Part> &parts) {
    vector<vector<double>> times(parts.size());
    const uint64_t answer = parts[0].work();
    const double begun = seconds();
    // The libraries take turns in each round, so that a disturbance affects all of them alike.
    for (int round = 0;
         round < MOST_ROUNDS && (round < LEAST_ROUNDS || seconds() - begun < ROW_SECONDS); round++)
        for (size_t i = 0; i < parts.size(); i++)
            times[i].push_back(time_of(kernel + ", " + data, parts[i], answer));
    for (size_t i = 0; i < parts.size(); i++) {
        // The least time but one: a virtual machine's clock loses a whole round now and then.
        std::nth_element(times[i].begin(), times[i].begin() + 1, times[i].end());
        printf("time\t%s\t%s\t%s\t%.4f\n", kernel.c_str(), data.c_str(), parts[i].library.c_str(),
               times[i][1] / each * 1e9);
    }
    fflush(stdout);
}

static void print_versions() {
    printf("version\tICU\t%s\n", U_ICU_VERSION);
    printf("version\tGLib\t%u.%u.%u\n", glib_major_version, glib_minor_version, glib_micro_version);
    printf("version\tutf8proc\t%s\n", utf8proc_version());
    printf("version\tlibunistring\t%d.%d\n", _libunistring_version >> 16,
           _libunistring_version >> 8 & 0xFF);
    printf("version\tmarisa\t%s\n", MARISA);
    printf("version\tdatrie\t%s\n", DATRIE);
}

int main(int count, char **arguments) {
    want({arguments + 1, arguments + count}, {"points", "texts", "keys", "longest", "sizes"});
    print_versions();
    compare_categories();
    compare_words();
}
