// Queries of frozen sets of code points, and the time that freezing takes.
#include "icu_set.hpp"
#include <unicode/uchar.h>

using icu::UnicodeSet;
using std::string;
using std::vector;

// The code points that have a property, as the installed ICU says.
static Set set_of_property(const string &name, UProperty property) {
    vector<bool> held(0x110000);
    for (uint32_t c = 0; c < 0x110000; c++) held[c] = u_hasBinaryProperty(UChar32(c), property);
    return set_of(name, held);
}

// All sets, and the sets that parsers often query.
static const vector<Set> &sets_to_freeze() {
    static vector<Set> sets;
    if (!sets.empty()) return sets;
    sets = all_sets();
    sets.push_back(set_of_property("xid_start", UCHAR_XID_START));
    sets.push_back(set_of_property("white_space", UCHAR_WHITE_SPACE));
    sets.push_back(empty_set());
    return sets;
}

static void contains() {
    static const struct {
        const char *name;
        uint32_t limit;
    } kinds[] = {{"latin1", 0x100}, {"bmp", 0x10000}, {"all", 0x110000}};
    const size_t turns = 32;
    for (const Set &s : sets_to_freeze()) {
        for (auto &kind : kinds) {
            vector<uint32_t> points(16384);
            for (auto &c : points) c = random_number(kind.limit);
            const Call ours = [&] {
                return ours_frozen_contains(PARTS(s.bytes), PARTS(points), turns);
            };
            const Call icu = [&] {
                uint64_t sum = 0;
                for (size_t i = 0; i < turns; i++)
                    for (uint32_t c : points) sum += s.frozen.contains(UChar32(c));
                return sum;
            };
            row("frozen_contains", s.name + "-" + kind.name, double(turns) * points.size(), ours,
                nullptr, icu);
        }
    }
}

// The set's own ranges, shuffled, or ranges of up to 64 code points at random.
static void contains_ranges(const Set &s, bool own) {
    const size_t turns = 32;
    vector<uint32_t> starts(16384), lasts(16384);
    for (size_t i = 0; i < starts.size(); i++) {
        const size_t k = own ? random_number(uint32_t(s.starts.size())) : 0;
        starts[i] = own ? s.starts[k] : random_number(0xD000);
        lasts[i] = own ? s.ends[k] - 1 : starts[i] + random_number(64);
    }
    const Call ours = [&] {
        return ours_frozen_contains_range(PARTS(s.bytes), PARTS(starts), PARTS(lasts), turns);
    };
    const Call icu = [&] {
        uint64_t sum = 0;
        for (size_t k = 0; k < turns; k++)
            for (size_t i = 0; i < starts.size(); i++)
                sum += s.frozen.contains(UChar32(starts[i]), UChar32(lasts[i]));
        return sum;
    };
    row("frozen_contains_range", s.name + (own ? "-own" : "-any"), double(turns) * starts.size(),
        ours, nullptr, icu);
}

static void over_texts() {
    const size_t turns = 8;
    for (const Set &s : sets_to_freeze()) {
        for (const Text &text : texts(16384)) {
            const uint8_t *bytes = reinterpret_cast<const uint8_t *>(text.bytes.data());
            const size_t size = text.bytes.size();
            const Call icu = [&] {
                uint64_t sum = 0;
                for (size_t i = 0; i < turns; i++) sum = add_held(s.frozen, text.bytes, sum);
                return sum;
            };
            row(
                "frozen_text", s.name + "-" + text.name, double(text.characters) * turns,
                [&] { return ours_frozen_text(PARTS(s.bytes), bytes, size, turns); }, nullptr, icu);
        }
    }
}

static void spans() {
    const size_t turns = 16;
    for (const Set &s : sets_to_freeze()) {
        for (const Text &text : texts(16384)) {
            const string held = held_text(s, text);
            const size_t characters = count_of_characters(held), size = held.size();
            if (characters < 1000) continue;
            const uint8_t *bytes = reinterpret_cast<const uint8_t *>(held.data());
            const Call icu = [&] {
                uint64_t sum = 0;
                for (size_t i = 0; i < turns; i++)
                    sum += s.frozen.spanUTF8(held.data(), int32_t(size), USET_SPAN_SIMPLE);
                return sum;
            };
            row(
                "frozen_span", s.name + "-" + text.name, double(characters) * turns,
                [&] { return ours_frozen_span(PARTS(s.bytes), bytes, size, turns); }, nullptr, icu);
        }
    }
}

static void freezing() {
    const size_t turns = 20;
    for (const Set &s : sets_to_freeze()) {
        const Call icu = [&] {
            uint64_t sum = 0;
            for (size_t i = 0; i < turns; i++) {
                UnicodeSet set = s.set;
                set.freeze();
                sum += set.contains(UChar32(0x4E00));
            }
            return sum;
        };
        row(
            "freeze", s.name, turns, [&] { return ours_freeze(PARTS(s.bytes), turns); }, nullptr,
            icu);
    }
}

void frozen_sets() {
    if (wanted("frozen_contains")) contains();
    if (wanted("frozen_contains_range"))
        for (const Set &s : sets_to_freeze()) {
            if (!s.starts.empty()) contains_ranges(s, true);
            contains_ranges(s, false);
        }
    if (wanted("frozen_text")) over_texts();
    if (wanted("frozen_span")) spans();
    if (wanted("freeze")) freezing();
}
