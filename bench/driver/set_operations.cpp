// Combining sets of code points: two sets by each operation, and ranges one by one. Also whether
// one set contains another.
#include "icu_set.hpp"
#include <algorithm>

using icu::UnicodeSet;
using std::string;
using std::vector;

static uint64_t mixed_set(const UnicodeSet &set) {
    uint64_t sum = 0;
    for (int32_t i = 0; i < set.getRangeCount(); i++)
        sum = mixed(mixed(sum, set.getRangeStart(i)), set.getRangeEnd(i));
    return sum;
}

// Builds the same set in each turn. Mixes the ranges of the first, and adds the number of ranges of
// each.
template <typename Turn> static uint64_t built(size_t turns, const Turn &turn) {
    uint64_t sum = 0;
    for (size_t i = 0; i < turns; i++) {
        UnicodeSet set;
        turn(set);
        set.compact();
        if (i == 0) sum = mixed_set(set);
        sum += set.getRangeCount();
    }
    return sum;
}

// Small sets take more turns, so that all rows take about as long.
static size_t turns_of(size_t ranges) { return std::max(size_t(10), 20000 / (ranges + 10)); }

static void blend(const string &kernel, uint32_t how, const Set &a, const Set &b) {
    const size_t turns = turns_of(a.starts.size() + b.starts.size());
    const Call icu = [&] {
        return built(turns, [&](UnicodeSet &set) {
            set.addAll(a.set);
            if (how == 0) set.addAll(b.set);
            if (how == 1) set.removeAll(b.set);
            if (how == 2) set.retainAll(b.set);
            if (how == 3) set.complementAll(b.set);
        });
    };
    row(
        kernel, a.name + "-" + b.name, turns,
        [&] { return ours_blend(PARTS(a.bytes), PARTS(b.bytes), how, turns); },
        [&] { return rust_blend(PARTS(a.bytes), PARTS(b.bytes), how, turns); }, icu);
}

static void subset(const Set &a, const Set &b) {
    // Each call of ours validates the sets, which takes longer than many queries.
    const size_t some = turns_of(a.starts.size() + b.starts.size());
    const size_t turns = (a.name == b.name ? 20 : 2000) * some;
    auto icu = [&](const UnicodeSet &set) {
        uint64_t sum = 0;
        for (size_t i = 0; i < turns; i++) sum += set.containsAll(b.set);
        return sum;
    };
    const string name = a.name + "-" + b.name;
    const Call ours = [&] { return ours_contains_set(PARTS(a.bytes), PARTS(b.bytes), turns); };
    const Call rust = [&] { return rust_contains_set(PARTS(a.bytes), PARTS(b.bytes), turns); };
    if (wanted("set_contains_set"))
        row("set_contains_set", name, turns, ours, rust, [&] { return icu(a.set); });
    if (wanted("frozen_contains_set"))
        row("frozen_contains_set", name, turns, ours, nullptr, [&] { return icu(a.frozen); });
}

static void of_ranges(const string &name, const vector<uint32_t> &starts,
                      const vector<uint32_t> &ends) {
    const size_t turns = turns_of(starts.size());
    const Call icu = [&] {
        return built(turns, [&](UnicodeSet &set) {
            for (size_t i = 0; i < starts.size(); i++) set.add(starts[i], ends[i] - 1);
        });
    };
    row(
        "set_ranges", name, double(turns) * starts.size(),
        [&] { return ours_set_ranges(PARTS(starts), PARTS(ends), turns); },
        [&] { return rust_set_ranges(PARTS(starts), PARTS(ends), turns); }, icu);
}

// The ranges of a set, in order and in no order.
static void in_both_orders(const string &name, const vector<uint32_t> &starts,
                           const vector<uint32_t> &ends) {
    of_ranges(name + "-ascending", starts, ends);
    vector<size_t> places(starts.size());
    for (size_t i = 0; i < places.size(); i++) places[i] = i;
    shuffle(places);
    vector<uint32_t> some_starts, some_ends;
    for (size_t place : places)
        some_starts.push_back(starts[place]), some_ends.push_back(ends[place]);
    of_ranges(name + "-shuffled", some_starts, some_ends);
}

template <typename Pair> static void for_all_pairs(const Pair &pair) {
    vector<Set> sets = all_sets();
    sets.push_back(empty_set());
    for (const Set &a : sets)
        for (const Set &b : sets) pair(a, b);
}

static void all_ranges() {
    for (const Set &s : all_sets())
        if (s.starts.size() > 1) in_both_orders(s.name, s.starts, s.ends);
    vector<uint32_t> starts, ends;
    for (uint32_t i = 0; i < 4000; i++) starts.push_back(7 * i), ends.push_back(7 * i + 3);
    in_both_orders("many4000", starts, ends);
}

void set_operations() {
    const char *const names[] = {"set_add", "set_remove", "set_retain", "set_complement"};
    for (uint32_t how = 0; how < 4; how++)
        if (wanted(names[how]))
            for_all_pairs([&](const Set &a, const Set &b) { blend(names[how], how, a, b); });
    if (wanted("set_contains_set") || wanted("frozen_contains_set")) for_all_pairs(subset);
    if (wanted("set_ranges")) all_ranges();
}
