// The program: bench TABLE.. -- [KERNEL..]. It prints lines of tab-separated words, which report.py
// reads: `cycle NS`, `time KERNEL DATA OURS.. RUST ICU`, with one time for each build of ours, and the
// cells and units that builds have.
#include "bench.hpp"
#include "data.hpp"
#include <algorithm>
#include <cstdio>

using std::string;
using std::vector;

static const char *const kernels[] = {
    "get_u8", "get_u16", "get_u32", "typed_u8", "typed_u16", "typed_u32", "text_u8", "values_u8", "bytes_u8",
    "copy_u8", "ranges_u8", "ranges_u16", "ranges_u32", "setfor_u8", "build_u8", "build_u16", "build_u32",
    "open", "try_new", "set_contains", "set_contains_apart", "set_text", "set_iter", "set_iter_chars",
    "set_position", "set_add", "set_remove", "set_retain", "set_complement", "set_contains_set", "set_ranges",
    "set_span", "frozen_contains", "frozen_text", "frozen_span", "freeze", "frozen_contains_set", "c16_iter",
    "c16_entries", "c16_look", "c16_longest", "c16_build", "packed_read", "packed_search", "c_get_u8",
    "c_text_u8", "c_copy_u8", "c_range_u8", "c_ranges_u8", "c_setfor_u8", "c_build_u8", "c_span_words",
    "c_span_long", "c_set_from_points", "c_words", "cpp_copy_u8", "cpp_span_words", "cpp_words", "range_u8",
    "frozen_contains_range", "c16_texts", "indices_u8", "find_u8", "span_u8", "c_open_u8", "c_call_u8",
    "c_many_u8", "c_utf16_u8", "c_span_back", "c_span_utf16", "c_set_union", "c_set_intersection",
    "c_set_difference", "c_set_symmetric", "c_set_complement", "c_set_contains", "c_frozen_contains",
    "c_frozen_has", "c_set_index_of", "c_set_nth", "c_set_from_ranges", "c_set_size", "c_set_test",
    "c_set_freeze", "c_set_contains_all", "c_units_step", "c_units_get_utf8", "c_units_prefixes",
    "c_units_longest_utf8", "c_units_next", "c_units_list", "c_units_list_below", "c_units_build",
    "c_units_build_utf8"};

enum { LEAST_ROUNDS = 5, MOST_ROUNDS = 400 };
// A row takes about this many seconds.
static const double ROW_SECONDS = 0.05;

// The builds of ours that this program has, by isolate.py: the functions of each, and the slots through
// which the driver calls them, as it calls ICU through those of the dynamic linker.
extern "C" {
extern const size_t bench_builds, bench_functions;
extern const void *const bench_table[];
extern const void *bench_slots[];
}

// Has the driver call this build of ours.
static void choose(size_t build) {
    std::copy_n(bench_table + build * bench_functions, bench_functions, bench_slots);
}

void each_build(const std::function<void()> &compare) {
    for (size_t build = bench_builds; build-- > 0;) {
        choose(build);
        compare();
    }
}

void row(const string &kernel, const string &data, double each, const Call &ours, const Call &rust,
         const Call &icu) {
    struct Library {
        const char *name;
        const Call *call;
        // The least time and the least but one. The latter counts: now and then, the processor clock of
        // a virtual machine reports no time for a whole round.
        double least, best;
    };
    vector<Library> libraries(bench_builds, {"ours", &ours, 1e9, 1e9});
    libraries.push_back({"Rust", &rust, 1e9, 1e9});
    libraries.push_back({"ICU", &icu, 1e9, 1e9});
    choose(0);
    const uint64_t answer = ours();
    const double begun = seconds();
    // The libraries take turns in each round, so that a disturbance affects all of them alike.
    for (int round = 0;
         round < MOST_ROUNDS && (round < LEAST_ROUNDS || seconds() - begun < ROW_SECONDS);
         round++) {
        for (size_t i = 0; i < libraries.size(); i++) {
            Library &it = libraries[i];
            if (!*it.call) continue;
            if (i < bench_builds) choose(i);
            const double start = seconds();
            const uint64_t other = (*it.call)();
            const double time = seconds() - start;
            it.best = std::min(it.best, std::max(time, it.least));
            it.least = std::min(it.least, time);
            if (other != answer) fail(kernel + ", " + data + ": " + it.name + " answers otherwise");
        }
    }
    printf("time\t%s\t%s", kernel.c_str(), data.c_str());
    for (const Library &it : libraries) *it.call ? printf("\t%.4f", it.best / each * 1e9) : printf("\t");
    printf("\n");
    choose(0);
    fflush(stdout);
}

// Prints how many ns a cycle takes, by a chain of multiplications of three cycles each.
static void print_cycle() {
    double least = 1e9;
    for (int round = 0; round < 20; round++) {
        const double start = seconds();
        uint64_t number = 3;
        for (int i = 0; i < 1000000; i++) asm volatile("imul %0, %0" : "+r"(number));
        least = std::min(least, seconds() - start);
    }
    printf("cycle\t%.4f\n", least / 3e6 * 1e9);
}

int main(int count, char **arguments) {
    int i = 1;
    for (; i < count && string(arguments[i]) != "--"; i++) read_table(arguments[i]);
    choose(0);
    print_cycle();
    want({arguments + std::min(i + 1, count), arguments + count},
         {std::begin(kernels), std::end(kernels)});
    tries();
    ranges();
    builds();
    opened();
    sets();
    frozen_sets();
    set_operations();
    unit_tries();
    packed();
    c_calls();
    c_spans();
    c_sets();
    c_units();
}
