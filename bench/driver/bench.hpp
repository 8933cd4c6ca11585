// What the subjects share: which kernels are wanted, rows of times, and random numbers.
#pragma once
#include <cstdint>
#include <functional>
#include <string>
#include <vector>

// One library's part of a row: does the work and returns what the others must return too.
typedef std::function<uint64_t()> Call;

// For the functions of a library in Rust, which take a slice as a pointer and a length.
#define PARTS(v) (v).data(), (v).size()

[[noreturn]] void fail(const std::string &what);

// Takes the words of the command line. Each has to be a kernel's name or a prefix of it.
void want(const std::vector<std::string> &words, const std::vector<std::string> &kernels);

// Whether the command line names no kernel at all, or this one by its name or a prefix of it.
bool wanted(const std::string &kernel);

// Processor time of this process, so that other processes on the machine matter less.
double seconds();

// Compares the results, times the calls in turns, and prints the least time of each library, in ns
// per one of `each`. An empty call has no time. If the program has two builds of ours, `ours` runs over
// both in turn: what it reads has to be made before, and not by one of them.
void row(const std::string &kernel, const std::string &data, double each, const Call &ours,
         const Call &rust, const Call &icu);

// Calls this once for each build of ours, which the driver then calls: for comparisons before the times.
void each_build(const std::function<void()> &compare);

// The same numbers in each run.
uint32_t random_number(uint32_t below);

template <typename T> void shuffle(std::vector<T> &all) {
    for (size_t i = all.size(); i > 1; i--) std::swap(all[i - 1], all[random_number(i)]);
}

// The peak of heap bytes in use during the call, by any library.
size_t most_of_heap(const std::function<void()> &call);

// The heap bytes that the call leaves in use.
size_t left_on_heap(const std::function<void()> &call);

// The subjects.
void tries();
void ranges();
void builds();
void opened();
void sets();
void frozen_sets();
void set_operations();
void unit_tries();
void packed();
// The C functions.
void c_calls();
void c_spans();
void c_sets();
void c_units();
