// Sets by this repository's C functions compared with ICU: algebra, complement, size, members,
// positions, sets of ranges, and freezing. A set is the list of its boundaries here.
#include "../../c/bekstaudi.h"
#include "icu_set.hpp"
#include <algorithm>
#include <functional>

using icu::UnicodeSet;
using std::string;
using std::vector;

enum { POINTS = 4096, ROOM = 1 << 13, TURNS = 32 };

// So often that the clock takes no part of the time.
template <class Turn> static uint64_t often(const Turn &turn) {
    uint64_t sum = 0;
    for (int i = 0; i < TURNS; i++) sum += turn();
    return sum;
}

// A set as the C functions read it, and as ICU has it.
struct Both {
    string name;
    vector<uint32_t> ends;
    UnicodeSet set, frozen;
};

static Both both_of(const Set &s) {
    Both both = {s.name, {}, s.set, s.frozen};
    for (size_t i = 0; i < s.starts.size(); i++) {
        both.ends.push_back(s.starts[i]);
        both.ends.push_back(s.ends[i]);
    }
    // Without this, ICU's clone would copy spare room too.
    both.set.compact();
    return both;
}

static const vector<Both> &sets_of_c() {
    static vector<Both> all;
    if (!all.empty()) return all;
    for (const Set &s : all_sets()) all.push_back(both_of(s));
    all.push_back(both_of(empty_set()));
    return all;
}

// Checks that a function that writes boundaries writes those of ICU's set, in each build.
static void compare(const string &name, const UnicodeSet &icu,
                    const std::function<int64_t(uint32_t *, size_t)> &write) {
    each_build([&] {
        vector<uint32_t> ends(ROOM);
        const int64_t count = write(ends.data(), ends.size());
        if (count != 2 * int64_t(icu.getRangeCount())) fail(name + ": another number of boundaries");
        for (int32_t i = 0; i < icu.getRangeCount(); i++)
            if (ends[2 * i] != uint32_t(icu.getRangeStart(i)) ||
                ends[2 * i + 1] != uint32_t(icu.getRangeEnd(i)) + 1)
                fail(name + ": other boundaries");
    });
}

typedef int64_t Blend(const uint32_t *, size_t, const uint32_t *, size_t, uint32_t *, size_t);
typedef UnicodeSet &(UnicodeSet::*IcuBlend)(const UnicodeSet &);

static const struct Operation {
    string kernel;
    Blend *ours;
    IcuBlend icu;
} operations[] = {{"c_set_union", bks_set_union, &UnicodeSet::addAll},
                  {"c_set_intersection", bks_set_intersection, &UnicodeSet::retainAll},
                  {"c_set_difference", bks_set_difference, &UnicodeSet::removeAll},
                  {"c_set_symmetric", bks_set_symmetric_difference, &UnicodeSet::complementAll}};

static void blend(const Operation &how, const Both &a, const Both &b) {
    const string name = a.name + "-" + b.name;
    UnicodeSet result(a.set);
    (result.*how.icu)(b.set);
    compare(how.kernel + ", " + name, result, [&](uint32_t *ends, size_t room) {
        return how.ours(PARTS(a.ends), PARTS(b.ends), ends, room);
    });
    vector<uint32_t> ends(ROOM);
    row(
        how.kernel, name, TURNS,
        [&] { return often([&] { return how.ours(PARTS(a.ends), PARTS(b.ends), PARTS(ends)); }); },
        nullptr, [&] {
            return often([&] {
                UnicodeSet copy(a.set);
                return 2 * (copy.*how.icu)(b.set).getRangeCount();
            });
        });
}

static void complement(const Both &s) {
    UnicodeSet result(s.set);
    result.complement();
    compare("c_set_complement, " + s.name, result, [&](uint32_t *ends, size_t room) {
        return bks_set_complement(PARTS(s.ends), ends, room);
    });
    vector<uint32_t> ends(ROOM);
    row(
        "c_set_complement", s.name, TURNS,
        [&] { return often([&] { return bks_set_complement(PARTS(s.ends), PARTS(ends)); }); }, nullptr,
        [&] {
            return often([&] {
                UnicodeSet copy(s.set);
                return 2 * copy.complement().getRangeCount();
            });
        });
}

// The loops over code points and positions. They are not inlined.
template <class Get> __attribute__((noinline)) static uint64_t over(const vector<uint32_t> &all, const Get &get) {
    uint64_t sum = 0;
    for (uint32_t one : all) sum += get(one);
    return sum;
}

static void members(const Both &s) {
    for (auto &kind : {std::make_pair("latin1", 0x100), std::make_pair("bmp", 0x10000),
                       std::make_pair("all", 0x110000)}) {
        vector<uint32_t> points(POINTS);
        for (uint32_t &c : points) c = random_number(kind.second);
        const string name = s.name + "-" + kind.first;
        auto by_icu = [&](const UnicodeSet &set) {
            return over(points, [&](uint32_t c) { return set.contains(UChar32(c)); });
        };
        if (wanted("c_set_contains"))
            row(
                "c_set_contains", name, POINTS,
                [&] { return over(points, [&](uint32_t c) { return bks_set_contains(PARTS(s.ends), c); }); },
                nullptr, [&] { return by_icu(s.set); });
        vector<uint64_t> words(BKS_FROZEN_MOST);
        words.resize(bks_set_freeze(PARTS(s.ends), PARTS(words)));
        if (wanted("c_frozen_contains"))
            row(
                "c_frozen_contains", name, POINTS,
                [&] { return over(points, [&](uint32_t c) { return bks_frozen_contains(PARTS(words), c); }); },
                nullptr, [&] { return by_icu(s.frozen); });
        if (wanted("c_frozen_has"))
            row(
                "c_frozen_has", name, POINTS,
                [&] { return over(points, [&](uint32_t c) { return bks_frozen_has(words.data(), c); }); },
                nullptr, [&] { return by_icu(s.frozen); });
    }
}

// The position of each of some members, and the member at each of some positions.
static void positions(const Both &s) {
    const uint32_t size = s.set.size();
    if (size == 0) return;
    vector<uint32_t> indices(POINTS), points;
    for (uint32_t &n : indices) points.push_back(s.set.charAt(n = random_number(size)));
    if (wanted("c_set_index_of"))
        row(
            "c_set_index_of", s.name, POINTS,
            [&] {
                return over(points, [&](uint32_t c) {
                    uint32_t index = 0;
                    bks_set_index_of(PARTS(s.ends), c, &index);
                    return index;
                });
            },
            nullptr, [&] { return over(points, [&](uint32_t c) { return s.set.indexOf(UChar32(c)); }); });
    if (wanted("c_set_nth"))
        row(
            "c_set_nth", s.name, POINTS,
            [&] {
                return over(indices, [&](uint32_t n) {
                    uint32_t c = 0;
                    bks_set_nth(PARTS(s.ends), n, &c);
                    return c;
                });
            },
            nullptr, [&] { return over(indices, [&](uint32_t n) { return s.set.charAt(int32_t(n)); }); });
}

// The set of its own ranges, ascending and shuffled.
static void from_ranges(const Both &s, bool shuffled) {
    vector<bks_interval> ranges;
    for (size_t i = 0; i < s.ends.size(); i += 2) ranges.push_back({s.ends[i], s.ends[i + 1] - 1});
    if (shuffled) shuffle(ranges);
    const string name = s.name + (shuffled ? "-shuffled" : "-ascending");
    compare("c_set_from_ranges, " + name, s.set, [&](uint32_t *ends, size_t room) {
        return bks_set_from_ranges(PARTS(ranges), ends, room);
    });
    vector<uint32_t> ends(ROOM);
    row(
        "c_set_from_ranges", name, double(std::max<size_t>(1, ranges.size())) * TURNS,
        [&] { return often([&] { return bks_set_from_ranges(PARTS(ranges), PARTS(ends)); }); }, nullptr,
        [&] {
            return often([&] {
                UnicodeSet set;
                for (const bks_interval &it : ranges) set.add(UChar32(it.first), UChar32(it.last));
                return 2 * set.getRangeCount();
            });
        });
}

// Functions of one set with a single result. ICU has no list to test: std::adjacent_find goes over the
// same numbers.
static void single(const Both &s) {
    if (wanted("c_set_size"))
        row(
            "c_set_size", s.name, TURNS, [&] { return often([&] { return bks_set_size(PARTS(s.ends)); }); },
            nullptr, [&] { return often([&] { return s.set.size(); }); });
    const auto is_list = [](const vector<uint32_t> &ends) {
        return ends.size() % 2 == 0 && (ends.empty() || ends.back() <= 0x110000) &&
               std::adjacent_find(ends.begin(), ends.end(), std::greater_equal<uint32_t>()) == ends.end();
    };
    if (wanted("c_set_test"))
        row(
            "c_set_test", s.name, TURNS, [&] { return often([&] { return bks_set_test(PARTS(s.ends)); }); },
            nullptr, [&] {
                return often([&] {
                    asm volatile("" : : : "memory");
                    return is_list(s.ends);
                });
            });
    vector<uint64_t> words(BKS_FROZEN_MOST);
    if (wanted("c_set_freeze"))
        row(
            "c_set_freeze", s.name, TURNS,
            [&] { return often([&] { return bks_set_freeze(PARTS(s.ends), PARTS(words)) >= 0; }); }, nullptr,
            [&] {
                return often([&] {
                    UnicodeSet copy(s.set);
                    return static_cast<UnicodeSet *>(copy.freeze())->isFrozen();
                });
            });
}

static void contains_all(const Both &a, const Both &b) {
    row(
        "c_set_contains_all", a.name + "-" + b.name, TURNS,
        [&] { return often([&] { return bks_set_contains_all(PARTS(a.ends), PARTS(b.ends)); }); }, nullptr,
        [&] { return often([&] { return a.set.containsAll(b.set); }); });
}

void c_sets() {
    static const char *const kernels[] = {
        "c_set_union",      "c_set_intersection", "c_set_difference",   "c_set_symmetric",
        "c_set_complement", "c_set_contains",     "c_frozen_contains",  "c_frozen_has",
        "c_set_index_of",   "c_set_nth",          "c_set_from_ranges",  "c_set_size",
        "c_set_test",       "c_set_freeze",       "c_set_contains_all"};
    if (std::none_of(std::begin(kernels), std::end(kernels), wanted)) return;
    for (const Operation &how : operations)
        for (const Both &a : sets_of_c())
            for (const Both &b : sets_of_c())
                if (wanted(how.kernel)) blend(how, a, b);
    for (const Both &s : sets_of_c()) {
        if (wanted("c_set_complement")) complement(s);
        members(s);
        positions(s);
        if (wanted("c_set_from_ranges"))
            for (bool shuffled : {false, true}) from_ranges(s, shuffled);
        single(s);
        for (const Both &b : sets_of_c())
            if (wanted("c_set_contains_all")) contains_all(s, b);
    }
}
