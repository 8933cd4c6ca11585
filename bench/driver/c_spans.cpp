// Spans by this repository's C functions compared with ICU, over frozen sets and over boundaries: the
// words of a text and what is between them in turn, and one long span. Words also from the end, in
// UTF-16, and by the C++ classes.
#include "../../c/bekstaudi.hpp"
#include "icu_set.hpp"
#include <algorithm>
#include <unicode/unistr.h>

using icu::UnicodeSet;
using std::string;
using std::vector;

enum { CHARACTERS = 16384, FEWEST = 1000, TURNS = 4 };

// The letters, in each form that a span takes.
struct Letters {
    const Set &set = all_sets()[0];
    vector<uint32_t> ends;
    vector<uint64_t> words;
    Letters() : words(BKS_FROZEN_MOST) {
        for (size_t i = 0; i < set.starts.size(); i++) {
            ends.push_back(set.starts[i]);
            ends.push_back(set.ends[i]);
        }
        const int64_t size = bks_set_freeze(PARTS(ends), PARTS(words));
        if (size < 0) fail("the letters can't be frozen for C");
        words.resize(size);
    }
};

// Cuts a text into spans, held and not held in turn, several times. It is not inlined.
template <class Span> __attribute__((noinline)) static uint64_t cut(const string &text, const Span &span) {
    uint64_t sum = 0;
    for (int turn = 0; turn < TURNS; turn++) {
        const char *at = text.data();
        size_t left = text.size();
        for (bool held = true; left > 0; held = !held) {
            const size_t size = span(at, left, held);
            sum = 3 * sum + size;
            at += size;
            left -= size;
        }
    }
    return sum;
}

static uint64_t icu_cut(const string &text, const UnicodeSet &set) {
    return cut(text, [&](const char *at, size_t left, bool held) -> size_t {
        return set.spanUTF8(at, int32_t(left), held ? USET_SPAN_SIMPLE : USET_SPAN_NOT_CONTAINED);
    });
}

static void over(const string &kernel, const Letters &letters, const string &name, const string &text) {
    const double characters = double(count_of_characters(text)) * TURNS;
    row(
        kernel, "frozen-" + name, characters,
        [&] {
            return cut(text, [&](const char *at, size_t left, bool held) -> size_t {
                return bks_frozen_span(PARTS(letters.words), at, left, held);
            });
        },
        nullptr, [&] { return icu_cut(text, letters.set.frozen); });
    row(
        kernel, "ends-" + name, characters,
        [&] {
            return cut(text, [&](const char *at, size_t left, bool held) -> size_t {
                return bks_set_span(PARTS(letters.ends), at, left, held);
            });
        },
        nullptr, [&] { return icu_cut(text, letters.set.set); });
}

// Cuts a text into spans from its end.
template <class Span> __attribute__((noinline)) static uint64_t cut_back(const string &text, const Span &span) {
    uint64_t sum = 0;
    for (int turn = 0; turn < TURNS; turn++) {
        size_t left = text.size();
        for (bool held = true; left > 0; held = !held) {
            left = span(text.data(), left, held);
            sum = 3 * sum + left;
        }
    }
    return sum;
}

static void back(const Letters &letters, const Text &text) {
    const double characters = double(text.characters) * TURNS;
    auto by_icu = [&](const UnicodeSet &set) {
        return cut_back(text.bytes, [&](const char *at, size_t left, bool held) -> size_t {
            return set.spanBackUTF8(at, int32_t(left), held ? USET_SPAN_SIMPLE : USET_SPAN_NOT_CONTAINED);
        });
    };
    row(
        "c_span_back", "frozen-" + text.name, characters,
        [&] {
            return cut_back(text.bytes, [&](const char *at, size_t left, bool held) -> size_t {
                return bks_frozen_span_back(PARTS(letters.words), at, left, held);
            });
        },
        nullptr, [&] { return by_icu(letters.set.frozen); });
    row(
        "c_span_back", "ends-" + text.name, characters,
        [&] {
            return cut_back(text.bytes, [&](const char *at, size_t left, bool held) -> size_t {
                return bks_set_span_back(PARTS(letters.ends), at, left, held);
            });
        },
        nullptr, [&] { return by_icu(letters.set.set); });
}

// Cuts a text in UTF-16 into spans.
template <class Span>
__attribute__((noinline)) static uint64_t cut_units(const icu::UnicodeString &text, const Span &span) {
    uint64_t sum = 0;
    for (int turn = 0; turn < TURNS; turn++) {
        const char16_t *at = text.getBuffer();
        size_t left = text.length();
        for (bool held = true; left > 0; held = !held) {
            const size_t count = span(at, left, held);
            sum = 3 * sum + count;
            at += count;
            left -= count;
        }
    }
    return sum;
}

static void utf16(const Letters &letters, const Text &text) {
    const icu::UnicodeString units = icu::UnicodeString::fromUTF8(text.bytes);
    const double characters = double(text.characters) * TURNS;
    auto by_icu = [&](const UnicodeSet &set) {
        return cut_units(units, [&](const char16_t *at, size_t left, bool held) -> size_t {
            return set.span(at, int32_t(left), held ? USET_SPAN_SIMPLE : USET_SPAN_NOT_CONTAINED);
        });
    };
    auto pointer = [](const char16_t *at) { return reinterpret_cast<const uint16_t *>(at); };
    row(
        "c_span_utf16", "frozen-" + text.name, characters,
        [&] {
            return cut_units(units, [&](const char16_t *at, size_t left, bool held) {
                return bks_frozen_span_utf16(PARTS(letters.words), pointer(at), left, held);
            });
        },
        nullptr, [&] { return by_icu(letters.set.frozen); });
    row(
        "c_span_utf16", "ends-" + text.name, characters,
        [&] {
            return cut_units(units, [&](const char16_t *at, size_t left, bool held) {
                return bks_set_span_utf16(PARTS(letters.ends), pointer(at), left, held);
            });
        },
        nullptr, [&] { return by_icu(letters.set.set); });
}

// The words of a text by the C++ classes.
static void by_classes(const Letters &letters, const Text &text) {
    static const bekstaudi::code_point_set set{bekstaudi::view<uint32_t>(letters.ends)};
    static const bekstaudi::frozen_set frozen(set);
    const double characters = double(count_of_characters(text.bytes)) * TURNS;
    const auto icu = [&] { return icu_cut(text.bytes, letters.set.frozen); };
    row(
        "cpp_span_words", "frozen-" + text.name, characters,
        [&] {
            return cut(text.bytes, [&](const char *at, size_t left, bool held) -> size_t {
                return frozen.span(std::string_view(at, left), held).size();
            });
        },
        nullptr, icu);
}

void c_spans() {
    static const char *const kernels[] = {"c_span_words", "c_span_long", "c_span_back", "c_span_utf16",
                                          "cpp_span_words"};
    if (std::none_of(std::begin(kernels), std::end(kernels), wanted)) return;
    const Letters letters;
    for (const Text &text : texts(CHARACTERS)) {
        if (wanted("c_span_words")) over("c_span_words", letters, text.name, text.bytes);
        if (wanted("c_span_back")) back(letters, text);
        if (wanted("c_span_utf16")) utf16(letters, text);
        if (wanted("cpp_span_words")) by_classes(letters, text);
        const string held = held_text(letters.set, text);
        if (wanted("c_span_long") && count_of_characters(held) >= FEWEST)
            over("c_span_long", letters, text.name, held);
    }
}
