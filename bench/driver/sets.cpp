// Queries of sets of code points that are not frozen.
#include "icu_set.hpp"
#include <algorithm>
#include <numeric>
#include <unicode/usetiter.h>
#include <unicode/utf8.h>

using icu::UnicodeSet;
using std::string;
using std::vector;

Set set_of(const string &name, const vector<bool> &held) {
    Set s;
    for (uint32_t c = 0; c < 0x110000; c++) {
        if (!held[c]) continue;
        const uint32_t start = c;
        while (c < 0x110000 && held[c]) c++;
        s.starts.push_back(start);
        s.ends.push_back(c);
        for (uint32_t end : {start, c})
            for (int i = 0; i < 3; i++) s.bytes.push_back(end >> 8 * i);
        s.set.add(start, c - 1);
    }
    s.name = name + std::to_string(s.starts.size());
    s.frozen = s.set;
    s.frozen.freeze();
    return s;
}

static Set set_of_categories(const string &name, int first, int last) {
    vector<bool> held(0x110000);
    for (uint32_t c = 0; c < 0x110000; c++)
        held[c] = first <= categories()[c] && categories()[c] <= last;
    return set_of(name, held);
}

const vector<Set> &all_sets() {
    static vector<Set> all;
    if (!all.empty()) return all;
    all.push_back(set_of_categories("letters", FIRST_LETTER, LAST_LETTER));
    all.push_back(set_of_categories("marks", FIRST_MARK, LAST_MARK));
    all.push_back(set_of_categories("unassigned", UNASSIGNED, UNASSIGNED));
    vector<bool> han(0x110000);
    std::fill(han.begin() + 0x4E00, han.begin() + 0xA000, true);
    all.push_back(set_of("han", han));
    return all;
}

Set empty_set() { return set_of("none", vector<bool>(0x110000)); }

// Checks that all libraries have the same number of members in each group of 64 code points.
static void compare(const Set &s) {
    vector<uint32_t> points(64);
    for (uint32_t c = 0; c < 0x110000; c += 64) {
        uint64_t held = 0;
        for (uint32_t i = 0; i < 64; i++) held += s.set.contains(UChar32(points[i] = c + i));
        if (ours_contains(PARTS(s.bytes), PARTS(points)) != held ||
            rust_contains(PARTS(s.bytes), PARTS(points)) != held)
            fail(s.name + ": members differ from " + std::to_string(c) + " on");
    }
}

static void contains() {
    static const struct {
        const char *name;
        uint32_t limit;
    } kinds[] = {{"latin1", 0x100}, {"bmp", 0x10000}, {"all", 0x110000}};
    for (const Set &s : all_sets()) {
        each_build([&] { compare(s); });
        for (auto &kind : kinds) {
            vector<uint32_t> points(16384);
            for (auto &c : points) c = random_number(kind.limit);
            auto icu = [&](const UnicodeSet &set) {
                uint64_t sum = 0;
                for (uint32_t c : points) sum += set.contains(UChar32(c));
                return sum;
            };
            const Call ours = [&] { return ours_contains(PARTS(s.bytes), PARTS(points)); };
            const Call rust = [&] { return rust_contains(PARTS(s.bytes), PARTS(points)); };
            const string name = s.name + "-" + kind.name;
            row("set_contains", name, points.size(), ours, rust, [&] { return icu(s.set); });
        }
    }
}

// Looks up all code points of one or two planes in random order. None repeats, and they are too many
// for a processor to learn which way the search for each of them goes.
static void contains_apart() {
    static const struct {
        const char *name;
        uint32_t limit;
    } kinds[] = {{"bmp", 0x10000}, {"planes", 0x20000}};
    for (const Set &s : all_sets()) {
        for (auto &kind : kinds) {
            vector<uint32_t> points(kind.limit);
            std::iota(points.begin(), points.end(), 0);
            shuffle(points);
            const Call icu = [&] {
                uint64_t sum = 0;
                for (uint32_t c : points) sum += s.set.contains(UChar32(c));
                return sum;
            };
            row(
                "set_contains_apart", s.name + "-" + kind.name, points.size(),
                [&] { return ours_contains(PARTS(s.bytes), PARTS(points)); },
                [&] { return rust_contains(PARTS(s.bytes), PARTS(points)); }, icu);
        }
    }
}

// Adds to `sum` the number of characters of a text that are in the set. It is not inlined, like the
// loops of the other two libraries.
__attribute__((noinline)) uint64_t add_held(const UnicodeSet &set, const string &text,
                                            uint64_t sum) {
    const uint8_t *bytes = reinterpret_cast<const uint8_t *>(text.data());
    for (size_t i = 0, size = text.size(); i < size;) {
        UChar32 c;
        U8_NEXT_UNSAFE(bytes, i, c);
        sum += set.contains(c);
    }
    return sum;
}

string held_text(const Set &s, const Text &text) {
    const uint8_t *all = reinterpret_cast<const uint8_t *>(text.bytes.data());
    string held;
    for (size_t i = 0, size = text.bytes.size(); i < size;) {
        const size_t from = i;
        UChar32 c;
        U8_NEXT_UNSAFE(all, i, c);
        if (s.frozen.contains(c)) held += text.bytes.substr(from, i - from);
    }
    return held;
}

size_t count_of_characters(const string &text) {
    return std::count_if(text.begin(), text.end(), [](char byte) { return (byte & 0xC0) != 0x80; });
}

static void spans() {
    const size_t turns = 16;
    for (const Set &s : all_sets()) {
        for (const Text &text : texts(16384)) {
            const string held = held_text(s, text);
            const size_t characters = count_of_characters(held), size = held.size();
            if (characters < 1000) continue;
            const uint8_t *bytes = reinterpret_cast<const uint8_t *>(held.data());
            const Call icu = [&] {
                uint64_t sum = 0;
                for (size_t i = 0; i < turns; i++)
                    sum += s.set.spanUTF8(held.data(), int32_t(size), USET_SPAN_SIMPLE);
                return sum;
            };
            row("set_span", s.name + "-" + text.name, double(characters) * turns,
                [&] { return ours_span(PARTS(s.bytes), bytes, size, turns); }, nullptr, icu);
        }
    }
}

static void over_texts() {
    for (const Set &s : all_sets()) {
        for (const Text &text : texts(16384)) {
            const size_t turns = 8;
            const uint8_t *bytes = reinterpret_cast<const uint8_t *>(text.bytes.data());
            const size_t size = text.bytes.size();
            auto icu = [&](const UnicodeSet &set) {
                uint64_t sum = 0;
                for (size_t i = 0; i < turns; i++) sum = add_held(set, text.bytes, sum);
                return sum;
            };
            const Call ours = [&] {
                return ours_contains_text(PARTS(s.bytes), bytes, size, turns);
            };
            const Call rust = [&] {
                return rust_contains_text(PARTS(s.bytes), bytes, size, turns);
            };
            const string name = s.name + "-" + text.name;
            const double each = double(text.characters) * turns;
            row("set_text", name, each, ours, rust, [&] { return icu(s.set); });
        }
    }
}

static void all_ranges() {
    for (const Set &s : all_sets()) {
        const size_t turns = 100000 / (s.starts.size() + 1);
        const Call icu = [&] {
            uint64_t sum = 0;
            for (size_t turn = 0; turn < turns; turn++)
                for (int32_t i = 0, count = s.set.getRangeCount(); i < count; i++)
                    sum += uint64_t(s.set.getRangeStart(i) ^ 7) + s.set.getRangeEnd(i);
            return sum;
        };
        row(
            "set_iter", s.name, double(turns) * s.starts.size(),
            [&] { return ours_set_iter(PARTS(s.bytes), turns); },
            [&] { return rust_set_iter(PARTS(s.bytes), turns); }, icu);
    }
}

static void all_characters() {
    for (const Set &s : all_sets()) {
        const Call icu = [&] {
            uint64_t sum = 0;
            for (icu::UnicodeSetIterator all(s.set); all.next();)
                if (!U_IS_SURROGATE(all.getCodepoint())) sum += all.getCodepoint() ^ 7;
            return sum;
        };
        size_t characters = 0;
        for (icu::UnicodeSetIterator all(s.set); all.next();)
            characters += !U_IS_SURROGATE(all.getCodepoint());
        row(
            "set_iter_chars", s.name, double(characters),
            [&] { return ours_set_iter_chars(PARTS(s.bytes), 1); },
            [&] { return rust_set_iter_chars(PARTS(s.bytes), 1); }, icu);
    }
}

static void positions() {
    for (const Set &s : all_sets()) {
        vector<uint32_t> points(512);
        for (auto &c : points) c = random_number(0x20000);
        const Call icu = [&] {
            uint64_t sum = 0;
            for (uint32_t c : points) {
                const int32_t place = s.set.indexOf(c);
                sum += place < 0 ? 7 : place;
            }
            return sum;
        };
        row(
            "set_position", s.name, points.size(),
            [&] { return ours_position(PARTS(s.bytes), PARTS(points)); },
            [&] { return rust_position(PARTS(s.bytes), PARTS(points)); }, icu);
    }
}

void sets() {
    if (wanted("set_contains")) contains();
    if (wanted("set_contains_apart")) contains_apart();
    if (wanted("set_text")) over_texts();
    if (wanted("set_span")) spans();
    if (wanted("set_iter")) all_ranges();
    if (wanted("set_iter_chars")) all_characters();
    if (wanted("set_position")) positions();
}
