// Look-ups in code point tries: get32, get32 of a trie whose type is known, and values along texts.
// ICU's part is its macros, which know the type too.
#include "icu_trie.hpp"
#include <algorithm>
#include <unicode/utf8.h>

using std::string;
using std::vector;

enum { POINTS = 4096, TURNS = 12, SHORT_TEXT = 256, LONG_TEXT = 1 << 16 };

// How often a text is read in one call. A long text is read once by each of the two loops: processors learn
// where the sizes of a few thousand characters change if they read the same ones again, and then mispredict
// no jump, as long as the loop has few of them. No application reads one text again and again.
static size_t turns_of(size_t characters) { return characters == LONG_TEXT ? 2 : TURNS * POINTS / characters; }

typedef uint64_t Adder(const UCPTrie *, const vector<uint32_t> &points, uint64_t sum);
typedef uint64_t TextAdder(const UCPTrie *, const string &text, uint64_t wanted, uint64_t sum);

// A value or its square: each loop is compiled for both, as ours and the peer's.
template <bool SQUARED> static inline uint64_t power(uint64_t value) {
    return SQUARED ? value * value : value;
}

// The sum continues from turn to turn, so that the compiler removes no turn.
#define ADDER(name, GET, bits)                                                                     \
    template <bool SQUARED>                                                                        \
    __attribute__((noinline)) static uint64_t name(const UCPTrie *trie,                            \
                                                   const vector<uint32_t> &points, uint64_t sum) { \
        for (uint32_t c : points) sum += power<SQUARED>(GET(trie, UCPTRIE_##bits, c));             \
        return sum;                                                                                \
    }
#define TEXT_ADDER(name, GET)                                                               \
    template <bool SQUARED>                                                                 \
    __attribute__((noinline)) static uint64_t name(const UCPTrie *trie, const string &text, \
                                                   uint64_t, uint64_t sum) {                \
        const uint8_t *bytes = reinterpret_cast<const uint8_t *>(text.data());              \
        for (size_t i = 0, size = text.size(); i < size;) {                                 \
            UChar32 c;                                                                      \
            U8_NEXT_UNSAFE(bytes, i, c);                                                    \
            sum += power<SQUARED>(GET(trie, UCPTRIE_8, c));                                 \
        }                                                                                   \
        return sum;                                                                         \
    }
ADDER(fast_8, UCPTRIE_FAST_GET, 8)
ADDER(small_8, UCPTRIE_SMALL_GET, 8)
ADDER(fast_16, UCPTRIE_FAST_GET, 16)
ADDER(small_16, UCPTRIE_SMALL_GET, 16)
ADDER(fast_32, UCPTRIE_FAST_GET, 32)
ADDER(small_32, UCPTRIE_SMALL_GET, 32)
TEXT_ADDER(fast_text, UCPTRIE_FAST_GET)
TEXT_ADDER(small_text, UCPTRIE_SMALL_GET)

// The macro for texts that may be ill-formed, which computes no code point if it needs none. It
// exists only for fast tries.
#define VALUES_ADDER(name, each, rest)                                                         \
    template <bool SQUARED>                                                                    \
    __attribute__((noinline)) static uint64_t name(const UCPTrie *trie, const string &text,    \
                                                   [[maybe_unused]] uint64_t wanted,           \
                                                   uint64_t sum) {                             \
        const uint8_t *start = reinterpret_cast<const uint8_t *>(text.data()), *at = start;    \
        for (const uint8_t *end = at + text.size(); at < end;) {                               \
            [[maybe_unused]] const size_t offset = at - start;                                 \
            uint8_t value;                                                                     \
            UCPTRIE_FAST_U8_NEXT(trie, UCPTRIE_8, at, end, value);                             \
            const uint64_t found = power<SQUARED>(value);                                      \
            each;                                                                              \
        }                                                                                      \
        return sum + (rest);                                                                   \
    }
VALUES_ADDER(fast_values, sum += found, 0)
VALUES_ADDER(fast_indices, sum += offset ^ found, 0)
VALUES_ADDER(fast_found, if (found == wanted) return sum + offset, text.size())

// One turn with the values, the next with their squares.
static uint64_t over_text(TextAdder *const adders[2], const UCPTrie *trie, const string &text,
                          size_t turns) {
    uint64_t sum = 0;
    for (size_t i = 0; i < turns; i++) sum = adders[i % 2](trie, text, i / 2, sum);
    return sum;
}

static const struct Width {
    string name;
    UCPTrieValueWidth icu;
    size_t bytes;
    uint32_t greatest;
    PointsCall *ours_get, *rust_get, *ours_typed, *rust_typed;
    AnswersCall *ours_answers, *rust_answers;
    Adder *fast[2], *small[2];
} widths[] = {
#define WIDTH(bits, bytes, greatest)                                                              \
    {                                                                                             \
        "_u" #bits, UCPTRIE_VALUE_BITS_##bits, bytes, greatest, ours_get_##bits, rust_get_##bits, \
            ours_typed_##bits, rust_typed_##bits, ours_answers_##bits, rust_answers_##bits,       \
            {fast_##bits<false>, fast_##bits<true>}, {small_##bits<false>, small_##bits<true>}    \
    }
    WIDTH(8, 1, 0xFF), WIDTH(16, 2, 0xFFFF), WIDTH(32, 4, 0xFFFFFFFF)};

struct Points {
    string name;
    vector<uint32_t> all;
};

// Five kinds of code points, at random and in order.
static const vector<Points> &kinds() {
    static vector<Points> all;
    if (!all.empty()) return all;
    static const struct {
        const char *name;
        uint32_t low, high;
        bool assigned;
    } bounds[] = {{"latin1", 0, 0x100, false},
                  {"bmp", 0, 0x10000, false},
                  {"supp", 0x10000, 0x30000, false},
                  {"assigned", 0, 0x30000, true},
                  {"all", 0, 0x110000, false}};
    for (auto &kind : bounds) {
        Points points = {kind.name, {}};
        while (points.all.size() < POINTS) {
            uint32_t c = kind.low + random_number(kind.high - kind.low);
            if (!kind.assigned || categories()[c] != UNASSIGNED) points.all.push_back(c);
        }
        all.push_back(points);
        std::sort(points.all.begin(), points.all.end());
        points.name += "-ordered";
        all.push_back(points);
    }
    return all;
}

// Checks that all code points, and some numbers above them, have the same value in all three.
static void compare(const Width &width, const IcuTrie &trie, const TrieParts &parts) {
    vector<uint32_t> points(0x110010), ours(points.size()), rust(points.size());
    for (uint32_t c = 0; c < points.size(); c++) points[c] = c;
    width.rust_answers(&parts, PARTS(points), PARTS(rust));
    each_build([&] {
        if (!width.ours_answers(&parts, PARTS(points), PARTS(ours)))
            fail("the parts of a trie are refused");
        for (uint32_t c : points)
            if (ours[c] != ucptrie_get(trie.get(), c) || rust[c] != ours[c])
                fail("values differ at " + std::to_string(c));
    });
}

static void look_ups(const Width &width, const Table &table, bool is_fast) {
    const IcuTrie trie = icu_trie(table, is_fast, width.icu);
    const TrieParts parts = parts_of(trie, width.bytes, is_fast);
    compare(width, trie, parts);
    Adder *const *adders = is_fast ? width.fast : width.small;
    for (const Points &points : kinds()) {
        const Call icu = [&] {
            uint64_t sum = 0;
            for (int i = 0; i < TURNS; i++) sum = adders[i % 2](trie.get(), points.all, sum);
            return sum;
        };
        auto by = [&](PointsCall *call) -> Call {
            return [&, call] { return call(&parts, PARTS(points.all), TURNS); };
        };
        const string name = name_of(table, is_fast) + "-" + points.name;
        const double each = double(POINTS) * TURNS;
        if (wanted("get" + width.name))
            row("get" + width.name, name, each, by(width.ours_get), by(width.rust_get), icu);
        if (wanted("typed" + width.name))
            row("typed" + width.name, name, each, by(width.ours_typed), by(width.rust_typed), icu);
    }
}

static const struct AlongText {
    string kernel;
    TextCall *ours, *rust;
    TextAdder *fast[2], *small[2];
} along_texts[] = {
#define TWO(name) {name<false>, name<true>}
    {"text_u8", ours_text_8, rust_text_8, TWO(fast_text), TWO(small_text)},
    {"values_u8", ours_values_8, rust_text_8, TWO(fast_values), {}},
    {"bytes_u8", ours_bytes_8, rust_text_8, TWO(fast_values), {}},
    {"indices_u8", ours_indices_8, rust_indices_8, TWO(fast_indices), {}},
    {"find_u8", ours_find_8, rust_find_8, TWO(fast_found), {}},
    {"span_u8", ours_span_8, rust_find_8, TWO(fast_found), {}}};

static void over_texts(const AlongText &along, const Table &table, bool is_fast) {
    const IcuTrie trie = icu_trie(table, is_fast, UCPTRIE_VALUE_BITS_8);
    const TrieParts parts = parts_of(trie, 1, is_fast);
    TextAdder *const *adders = is_fast ? along.fast : along.small;
    for (size_t characters : {SHORT_TEXT, LONG_TEXT}) {
        const size_t turns = turns_of(characters);
        for (const Text &text : texts(characters)) {
            const uint8_t *bytes = reinterpret_cast<const uint8_t *>(text.bytes.data());
            const size_t size = text.bytes.size();
            const Call icu = [&] { return over_text(adders, trie.get(), text.bytes, turns); };
            // The result of a search is how many bytes it passes.
            const double passed = adders[0] == fast_found<false> ? double(icu()) / size : turns;
            row(
                along.kernel,
                name_of(table, is_fast) + "-" + text.name +
                    (characters == LONG_TEXT ? "-long" : "-short"),
                characters * passed, [&] { return along.ours(&parts, bytes, size, turns); },
                [&] { return along.rust(&parts, bytes, size, turns); }, icu);
        }
    }
}

// The values of a text in a buffer, summed.
template <bool SQUARED>
__attribute__((noinline)) static uint64_t copied(const UCPTrie *trie, const string &text,
                                                 vector<uint8_t> &values, uint64_t sum) {
    const uint8_t *at = reinterpret_cast<const uint8_t *>(text.data()), *end = at + text.size();
    // Local copies: a write of a byte could change the vector itself, for the compiler.
    uint8_t *const into = values.data();
    const size_t room = values.size();
    for (size_t i = 0; at < end && i < room; i++)
        UCPTRIE_FAST_U8_NEXT(trie, UCPTRIE_8, at, end, into[i]);
    for (uint8_t value : values) sum += power<SQUARED>(value);
    return sum;
}

static void copies(const Table &table) {
    const IcuTrie trie = icu_trie(table, true, UCPTRIE_VALUE_BITS_8);
    const TrieParts parts = parts_of(trie, 1, true);
    for (size_t characters : {SHORT_TEXT, LONG_TEXT}) {
        const size_t turns = turns_of(characters);
        for (const Text &text : texts(characters)) {
            const uint8_t *bytes = reinterpret_cast<const uint8_t *>(text.bytes.data());
            vector<uint8_t> values(characters);
            auto by = [&](CopyCall *call) -> Call {
                return [&, call] { return call(&parts, bytes, text.bytes.size(), PARTS(values), turns); };
            };
            row(
                "copy_u8", name_of(table, true) + "-" + text.name + "-" + std::to_string(characters),
                double(characters) * turns, by(ours_copy_8), by(rust_copy_8), [&] {
                    uint64_t sum = 0;
                    for (size_t i = 0; i < turns; i += 2) {
                        sum = copied<false>(trie.get(), text.bytes, values, sum);
                        sum = copied<true>(trie.get(), text.bytes, values, sum);
                    }
                    return sum;
                });
        }
    }
}

void tries() {
    for (const Width &width : widths)
        for (const Table &table : tables())
            for (bool is_fast : {true, false})
                if (table.greatest <= width.greatest &&
                    (wanted("get" + width.name) || wanted("typed" + width.name)))
                    look_ups(width, table, is_fast);
    for (const AlongText &along : along_texts)
        for (const Table &table : tables())
            for (bool is_fast : {true, false})
                if (table.greatest <= 0xFF && wanted(along.kernel) && (is_fast || along.small[0]))
                    over_texts(along, table, is_fast);
    for (const Table &table : tables())
        if (table.greatest <= 0xFF && wanted("copy_u8")) copies(table);
}
