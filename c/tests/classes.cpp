/* The classes of bekstaudi.hpp over a trie, compared with the runs of its table, with std::set,
   and with worked examples.
   Usage: classes TRIE RUNS ERROR; ERROR is the trie's error value. */
#include "bekstaudi.hpp"
#include "parts.h"
#include <map>
#include <set>
#include <string>
#include <vector>

using bekstaudi::code_point_set;

static bks_range runs[1 << 17];

/* Whether the call throws an error of this type. */
template <class Error, class Call>
static bool throws(Call call) {
    try {
        call();
    } catch (const Error &) {
        return true;
    }
    return false;
}

/* All look-ups and ranges, and the sets of a few values. */
template <class Value>
static void all_of(const bekstaudi::view<uint8_t> &bytes, size_t count, uint32_t error) {
    const bekstaudi::trie<Value> trie(bytes);
    CHECK(trie.size_bytes() == bytes.size() && trie.is_coherent());
    for (size_t i = 0; i < count; i++)
        for (uint32_t c = runs[i].first; c <= runs[i].last; c++) CHECK(trie[c] == runs[i].value);
    CHECK(trie[0x110000] == static_cast<Value>(error) && !trie.range(0x110000));
    CHECK(trie.range(runs[0].last)->first == runs[0].last);
    const std::string_view text = "a\xC3\xA9\xE4\xB8\x96\xFF\xF0\x9F\x98\x80z";
    const std::vector<uint32_t> parts = {'a', 0xE9, 0x4E16, 0x110000, 0x1F600, 'z'};
    const std::vector<Value> values = trie.values_of(text);
    CHECK(values.size() == parts.size());
    for (size_t k = 0; k < values.size(); k++) CHECK(values[k] == trie[parts[k]]);
    Value few[3];
    const auto copied = trie.copy_values(text, few, 3);
    CHECK(copied.values == 3 && copied.bytes == 6 && std::equal(few, few + 3, values.begin()));
    size_t i = 0;
    for (const bks_range &range : trie) {
        CHECK(i < count && range.first == runs[i].first && range.last == runs[i].last);
        CHECK(range.value == runs[i++].value);
    }
    CHECK(i == count);
    auto first = [&] { return bekstaudi::trie<Value>(bytes).begin(); }();
    CHECK(static_cast<size_t>(std::distance(first, trie.end())) == count);
    for (size_t k = 0; k < count; k += 97) {
        code_point_set set = trie.set_of(static_cast<Value>(runs[k].value));
        size_t held = 0;
        for (size_t j = 0; j < count; j++) {
            bool wanted = runs[j].value == runs[k].value;
            CHECK(set.contains(runs[j].first) == wanted && set.contains(runs[j].last) == wanted);
            held += wanted ? runs[j].last - runs[j].first + 1 : 0;
        }
        CHECK(set.size() == held);
    }
}

/* Bytes that are not a trie, or one of another width. */
static void refused(const bekstaudi::view<uint8_t> &bytes, size_t width) {
    auto status_of = [](auto open) {
        try {
            open();
        } catch (const bekstaudi::invalid_trie &fault) {
            return fault.status();
        }
        return BKS_OK;
    };
    CHECK(status_of([&] { bekstaudi::trie8(bytes.data(), 3); }) == BKS_SHORT);
    CHECK(status_of([&] { bekstaudi::trie8 none{std::string_view()}; }) == BKS_SHORT);
    CHECK(status_of([&] { bekstaudi::trie8(std::string_view("xxxxxxxxxxxxxxxx")); }) == BKS_SIGNATURE);
    CHECK(status_of([&] { bekstaudi::trie8 trie(bytes); }) == (width == 1 ? BKS_OK : BKS_OTHER_WIDTH));
    CHECK(status_of([&] { bekstaudi::trie16 trie(bytes); }) == (width == 2 ? BKS_OK : BKS_OTHER_WIDTH));
    CHECK(status_of([&] { bekstaudi::trie32 trie(bytes); }) == (width == 4 ? BKS_OK : BKS_OTHER_WIDTH));
}

/* The code points below 40 of a set, compared with those of a std::set. */
static std::set<uint32_t> below_40(const code_point_set &set) {
    std::set<uint32_t> found;
    for (uint32_t c = 0; c < 40; c++)
        if (set.contains(c)) found.insert(c);
    return found;
}

static void operations() {
    const code_point_set none, a{1, 5, 9, 20}, b{3, 12, 30, 31}, all{0, 0x110000};
    for (const code_point_set *x : {&none, &a, &b, &all})
        for (const code_point_set *y : {&none, &a, &b, &all}) {
            std::set<uint32_t> either = below_40(*x), both, left, one;
            for (uint32_t c : below_40(*x))
                (y->contains(c) ? both : left).insert(c);
            one = left;
            for (uint32_t c : below_40(*y)) {
                either.insert(c);
                if (!x->contains(c)) one.insert(c);
            }
            CHECK(below_40(*x | *y) == either && below_40(*x & *y) == both);
            CHECK(below_40(*x - *y) == left && below_40(*x ^ *y) == one);
            CHECK((*x == *y) == (x->ends() == y->ends()) && (*x != *y) == (x->ends() != y->ends()));
        }
    CHECK((a | b) == code_point_set({1, 20, 30, 31}) && (a & none).empty() && all.size() == 0x110000);
}

/* Sets of ranges and of points in any order, and what a set says of its code points, compared with
   std::set. */
static void sets_of_ranges() {
    typedef std::vector<code_point_set::range> ranges;
    CHECK(code_point_set::from_ranges({}).empty());
    CHECK(code_point_set::from_ranges({{5, 4}, {0x110000, 0x110005}}).empty());
    CHECK(code_point_set::from_ranges({{0x10FFFF, UINT32_MAX}}) == code_point_set({0x10FFFF, 0x110000}));
    CHECK(code_point_set::from_ranges({{7, 9}, {1, 3}, {4, 5}, {2, 8}}) == code_point_set({1, 10}));
    CHECK(code_point_set::from_ranges({{0, UINT32_MAX}}).size() == 0x110000);
    CHECK(code_point_set::from_points(std::u32string_view(U"bca")) == code_point_set({0x61, 0x64}));
    uint32_t state = 1;
    for (int turn = 0; turn < 2000; turn++) {
        ranges given;
        std::set<uint32_t> wanted;
        for (int i = 0; i < turn % 9; i++) {
            uint32_t pair[2];
            for (uint32_t &it : pair) it = (state = state * 1664525 + 1013904223) >> 27;
            given.push_back({pair[0], pair[1]});
            for (uint32_t c = pair[0]; c <= pair[1]; c++) wanted.insert(c);
        }
        const code_point_set set = code_point_set::from_ranges(given);
        CHECK(below_40(set) == wanted && set.size() == wanted.size());
        CHECK(code_point_set(bekstaudi::view<uint32_t>(set.ends())) == set);
        CHECK(code_point_set::from_points(wanted) == set && code_point_set::from_ranges(set.ranges()) == set);
        CHECK(std::vector<uint32_t>(set.begin(), set.end()) ==
              std::vector<uint32_t>(wanted.begin(), wanted.end()));
        CHECK(std::vector<uint32_t>(std::make_reverse_iterator(set.end()),
                                    std::make_reverse_iterator(set.begin())) ==
              std::vector<uint32_t>(wanted.rbegin(), wanted.rend()));
        size_t index = 0;
        for (uint32_t c : wanted) {
            CHECK(set.nth(index) == c && set.index_of(c) == index);
            index++;
        }
        CHECK(!set.nth(index) && !set.index_of(40) && (~set).size() == 0x110000 - index && ~~set == set);
        CHECK((~set & set).empty() && set.contains_all(code_point_set()) && set.contains_all(set));
        CHECK(set.contains_all(~set) == false && (~code_point_set()).contains_all(set));
        code_point_set same;
        same |= set;
        CHECK(same == set && std::hash<code_point_set>()(same) == std::hash<code_point_set>()(set));
        same &= code_point_set{3, 9};
        CHECK(same == (set & code_point_set{3, 9}));
        same -= code_point_set{4, 5};
        same ^= set;
        CHECK(same == (((set & code_point_set{3, 9}) - code_point_set{4, 5}) ^ set));
        CHECK(!(set < set) && (set == same || (set < same) != (same < set)));
    }
}

static void spans() {
    const code_point_set letters{0x41, 0x5B, 0x61, 0x7B, 0xDF, 0xE0};
    CHECK(letters.span("Stra\xC3\x9F" "e 7") == "Stra\xC3\x9F" "e");
    CHECK(letters.span("7 a", false) == "7 " && letters.span("").empty());
    CHECK(letters.span(std::string_view()).empty());
    CHECK(letters.span("a\xFF") == "a" && throws<bekstaudi::invalid_utf8>([&] { letters.span("\xFF" "a"); }));
    CHECK(letters.span_back("7 Stra\xC3\x9F" "e") == "Stra\xC3\x9F" "e" && letters.span_back("a7", false) == "7");
    CHECK(letters.span_back("").empty() && letters.span_back(std::string_view()).empty());
    CHECK(letters.span_back("\xFF" "a") == "a" && throws<bekstaudi::invalid_utf8>([&] { letters.span_back("a\xFF"); }));
    bekstaudi::frozen_set frozen(letters);
    CHECK(frozen.span_lossy("a\xFF" "a") == "a" && frozen.span_lossy("7\xFF\xE4\xB8" "a", false) == "7\xFF\xE4\xB8");
    CHECK(frozen.span_back_lossy("a7\xFF", false) == "7\xFF" && frozen.span_back_lossy("\xFF").empty());
    CHECK(frozen.span_lossy("").empty() && frozen.span_back_lossy(std::string_view()).empty());
    CHECK(letters.span(u"a\u00DF7") == u"a\u00DF" && letters.span(u"7\xD800" "a", false) == u"7\xD800");
    CHECK(letters.span(std::u16string_view()).empty() && letters.span(u"").empty());
    for (size_t size = 0; size < 600; size++)
        for (std::string_view last : {"", "7", "\xC3\x9F", "\xC3\x9F" "7", "\xE4\xB8\x96", "\xF0\x9F\x98\x80"}) {
            std::string text = std::string(size, 'a') + std::string(last) + "7";
            CHECK(letters.span(text).size() == text.find_first_not_of("a\xC3\x9F"));
            CHECK(bekstaudi::frozen_set(letters).span(text) == letters.span(text));
            CHECK(bekstaudi::frozen_set(letters).span_back(text, false) == letters.span_back(text, false));
        }
    /* An ill-formed part is an error if it is read, and not if it comes later. */
    const std::string before = std::string(100, ' ') + std::string(200, 'a') + "\xFF";
    CHECK(letters.span(before, false).size() == 100);
    CHECK(letters.span(std::string_view(before).substr(100)).size() == 200);
    CHECK(throws<bekstaudi::invalid_utf8>([&] { letters.span(std::string_view(before).substr(300)); }));
    for (std::initializer_list<uint32_t> ends : {std::initializer_list<uint32_t>{1}, {2, 1}, {0, 0x110001}})
        CHECK(throws<bekstaudi::invalid_set>([&] { code_point_set set(ends); }));
}

/* Texts in UTF-32 and of char8_t give what the same texts in UTF-8 and UTF-16 give. */
static void texts_of_all_kinds() {
    const std::u32string_view text = U"aé世\U0001F600!";
    const code_point_set set{'a', 'b', 0xE9, 0xEA, 0x4E16, 0x4E17, 0x1F600, 0x1F601};
    const bekstaudi::frozen_set frozen(set);
    CHECK(set.span(text) == text.substr(0, 4) && frozen.span(text) == text.substr(0, 4));
    CHECK(set.span(U"!\x110000!a", false) == U"!\x110000!" && frozen.span(U"!a", false) == U"!");
    CHECK(set.span(U"").empty() && frozen.span(std::u32string_view()).empty());
    const std::vector<uint8_t> bytes = bekstaudi::build<uint16_t>({{'a', 'z', 1}, {0xE9, 0xE9, 700}, {0x1F600, 0x1F600, 3}}, 9, 5);
    const bekstaudi::trie16 trie(bytes);
    const std::vector<uint16_t> values = {1, 700, 9, 3, 9};
    CHECK(trie.values_of(text) == values && trie.values_of(u"a\u00E9\u4E16\U0001F600!") == values);
    CHECK((trie.values_of(U"\x110000" U"a") == std::vector<uint16_t>{5, 1} && trie.values_of(std::u16string_view()).empty()));
    CHECK(trie.values_of(u"\xD83D" u"a") == (std::vector<uint16_t>{9, 1}) && trie.values_of(U"").empty());
    const std::map<std::u32string, int> words = {{U"", 7}, {U"a", 1}, {U"a\U0001F600", 2}, {U"\u00E9", 3}};
    const std::vector<uint8_t> units = bekstaudi::unit_trie::build(words);
    CHECK(units == bekstaudi::unit_trie::build(std::map<std::u16string, int>{
                       {u"", 7}, {u"a", 1}, {u"a\U0001F600", 2}, {u"\u00E9", 3}}));
    const bekstaudi::unit_trie tries(units);
    for (const auto &word : words) CHECK(tries[word.first] == word.second);
    CHECK(!tries[U"b"] && !tries[U"a\x110000"] && tries.longest(U"a\U0001F600!")->size == 2);
    CHECK(tries.longest(U"a\U0001F601")->value == 1 && tries.longest(U"\x110000")->value == 7);
    CHECK(tries.prefixes(U"a\U0001F600").size() == 3 && tries.prefixes(U"").size() == 1);
    CHECK(throws<bekstaudi::invalid_entries>(
        [&] { bekstaudi::unit_trie::build(std::map<std::u32string, int>{{U"\x110000", 1}}); }));
#ifdef __cpp_lib_char8_t
    CHECK(set.span(u8"a\u00E9!") == u8"a\u00E9" && frozen.span(u8"a\u00E9!") == u8"a\u00E9");
    CHECK(frozen.span_lossy(u8"a\u00E9!") == u8"a\u00E9" && frozen.span_back_lossy(u8"!\u00E9") == u8"\u00E9");
    CHECK(set.span_back(u8"!\u00E9") == u8"\u00E9" && frozen.span_back(u8"!\u00E9") == u8"\u00E9");
    CHECK(trie.values_of(u8"a\u00E9\u4E16\U0001F600!") == values);
    uint16_t one[1];
    CHECK(trie.copy_values(u8"\u00E9", one, 1).bytes == 2 && one[0] == 700);
    CHECK((units == bekstaudi::unit_trie::build(std::map<std::u8string, int>{
                        {u8"", 7}, {u8"a", 1}, {u8"a\U0001F600", 2}, {u8"\u00E9", 3}})));
    CHECK(tries[u8"\u00E9"] == 3 && tries.get(u8"a") == 1 && tries.longest(u8"ab")->size == 1);
    CHECK(tries.prefixes(u8"a").size() == 2 && tries.entries(u8"a").size() == 2);
#endif
}

/* Code points in each form that from_points takes. */
static void sets_of_points() {
    CHECK(code_point_set::from_points({0x42, 0x41}) == code_point_set({0x41, 0x43}));
    CHECK(code_point_set::from_points({U'é'}) == code_point_set({0xE9, 0xEA}) && code_point_set::from_points({}).empty());
    CHECK(code_point_set::from_points(U"ab") == code_point_set({0x61, 0x63}));
    CHECK(code_point_set::from_points(std::u32string(U"ab")) == code_point_set({0x61, 0x63}));
    CHECK(code_point_set::from_points(std::vector<int>{-1, 0x41, 0x110000}) == code_point_set({0x41, 0x42}));
    CHECK(code_point_set::from_points(std::set<int64_t>{0x100000041, -1, 0x42}) == code_point_set({0x42, 0x43}));
    const code_point_set::range ranges[] = {{0x41, 0x42}, {0x61, 0x61}};
    CHECK(code_point_set::from_ranges(ranges) == code_point_set({0x41, 0x43, 0x61, 0x62}));
    CHECK(code_point_set::from_ranges({{0, 5}}) == code_point_set({0, 6}));
}

/* Frozen sets: equal to the set that each was made of, also copied and moved, and with failing
   allocations. */
static bool refusing = false;

extern "C" void *__real_malloc(size_t size);
extern "C" void *__wrap_malloc(size_t size);
extern "C" void *__wrap_malloc(size_t size) { return refusing ? nullptr : __real_malloc(size); }

static void frozen_sets() {
    std::vector<uint32_t> ends;
    for (uint32_t c = 0; c < CODE_POINTS; c += 100) ends.push_back(c);
    if (ends.size() % 2 != 0) ends.pop_back();
    const code_point_set none, all{0, 0x110000}, few{0x41, 0x5B, 0xDF, 0xE0}, many{bekstaudi::view<uint32_t>(ends)};
    const code_point_set last{0x10FFFF, 0x110000};
    CHECK(bekstaudi::frozen_set(none).words().size() == 50 && bekstaudi::frozen_set(all).words().size() == 50);
    CHECK(bekstaudi::frozen_set(few).words().size() == 50 && bekstaudi::frozen_set(last).words().size() == 1152);
    for (const code_point_set &set : {none, all, few, many, last}) {
        bekstaudi::frozen_set first(set), copy(first), moved(std::move(first));
        copy = std::move(moved);
        CHECK(first.words() == copy.words() && moved.words() == copy.words());
        CHECK(first.words().size() <= BKS_FROZEN_MOST);
        CHECK(first.words().capacity() <= first.words().size() + 16 * set.ends().size());
        for (uint32_t c = 0; c <= CODE_POINTS; c++) CHECK(moved.contains(c) == set.contains(c));
        CHECK(!copy.contains(UINT32_MAX) && copy.span("") == "" && copy.span(std::string_view()).empty());
        for (bool held : {false, true})
            for (std::string_view text : {"A\xC3\x9F" "d", "dA", "AAAA", "\xC3\x9F"})
                CHECK(copy.span(text, held) == set.span(text, held) && copy.span_back(text, held) == set.span_back(text, held));
        for (std::u16string_view text : {u"A\u00DF" u"d", u"dA", u"\xD800", u"\U0001F600" u"A"})
            CHECK(copy.span(text) == set.span(text) && copy.span(text, false) == set.span(text, false));
        CHECK(throws<bekstaudi::invalid_utf8>([&] { copy.span("\xFF" "A"); }));
        CHECK(throws<bekstaudi::invalid_utf8>([&] { copy.span_back("A\xFF"); }));
        refusing = true;
        bool told = throws<std::bad_alloc>([&] { bekstaudi::frozen_set refused(set); });
        refusing = false;
        CHECK(told);
    }
}

/* The examples of the format's description: a is 1 and ab 100; a lead surrogate is 1 and its pair
   with DE00 is 2. */
static void unit_tries() {
    const uint8_t worked[] = {0x30, 0, 0x61, 0, 0xB0, 0, 0x62, 0, 0x64, 0x80};
    const uint8_t pairs[] = {0x30, 0, 0x3D, 0xD8, 0xB0, 0, 0, 0xDE, 2, 0x80};
    const bekstaudi::unit_trie words(worked), pair(pairs, sizeof pairs), none(worked, 0);
    CHECK(words[u"a"] == 1 && words[u"ab"] == 100 && !words[u"b"] && !words[u""] && !none[u"a"]);
    CHECK(words.longest(u"abba")->size == 2 && words.longest("acb")->value == 1);
    CHECK(!words.longest("ba") && !words.longest(u"") && !none.longest("a"));
    CHECK(pair.longest("\xF0\x9F\x98\x80!")->size == 4 && pair.longest(u"\xD83D\xDE00")->value == 2);
    CHECK(!pair.longest("\xF0\x9F\x98\x81") && pair.longest(u"\xD83D\xDE01")->size == 1);
    CHECK(words.longest("a\xFF")->size == 1 && words.longest("ab\xC3")->value == 100);
    CHECK(throws<bekstaudi::invalid_utf8>([&] { words.longest("\xFF" "a"); }));
    bekstaudi::unit_trie::cursor cursor(words);
    CHECK(!cursor.value() && cursor.step(u'a') == BKS_INTERMEDIATE_VALUE && cursor.value() == 1);
    CHECK(cursor.step(u'b') == BKS_FINAL_VALUE && cursor.value() == 100);
    CHECK(cursor.step(u'b') == BKS_NO_MATCH && !cursor.value());
    CHECK(words.get("ab") == 100 && !words.get("b") && !words.get("a\xFF") && !none.get("a"));
    CHECK(pair.get("\xF0\x9F\x98\x80") == 2 && !pair.get("\xED\xA0\xBD"));
    auto are = [](const std::vector<bekstaudi::unit_trie::match> &found,
                  std::initializer_list<std::pair<size_t, int32_t>> wanted) {
        auto same = [](const auto &a, const auto &b) { return a.size == b.first && a.value == b.second; };
        return std::equal(found.begin(), found.end(), wanted.begin(), wanted.end(), same);
    };
    CHECK(are(words.prefixes("abc"), {{1, 1}, {2, 100}}) && are(words.prefixes(u"ac"), {{1, 1}}));
    CHECK(are(words.prefixes("b"), {}) && are(none.prefixes(u""), {}));
    CHECK(are(pair.prefixes("\xF0\x9F\x98\x80"), {{4, 2}}));
    CHECK(are(pair.prefixes(u"\xD83D\xDE00"), {{1, 1}, {2, 2}}));
    CHECK(are(words.prefixes("a\xFF"), {{1, 1}}) && are(words.prefixes("ab\xC3"), {{1, 1}, {2, 100}}));
    CHECK(throws<bekstaudi::invalid_utf8>([&] { words.prefixes("\xFF" "a"); }));
    bekstaudi::unit_trie::cursor next(words);
    CHECK(next.next_units() == std::vector<char16_t>{u'a'} && !next.unique_value());
    CHECK(next.step(u'a') && next.next_units() == std::vector<char16_t>{u'b'} && !next.unique_value());
    CHECK(next.step(u'b') && next.next_units().empty() && next.unique_value() == 100);
    CHECK(next.step(u'b') == BKS_NO_MATCH && next.next_units().empty() && !next.unique_value());
}

/* Tries are made over bytes that outlive them: named containers, and views. */
template <class Trie, class From>
inline constexpr bool made_over = std::is_constructible_v<Trie, From>;
static_assert(!made_over<bekstaudi::trie8, std::vector<uint8_t>>);
static_assert(!made_over<bekstaudi::trie16, const std::vector<uint8_t>>);
static_assert(!made_over<bekstaudi::trie32, std::string>);
static_assert(!made_over<bekstaudi::unit_trie, std::u16string>);
static_assert(made_over<bekstaudi::trie8, std::vector<uint8_t> &>);
static_assert(made_over<bekstaudi::trie8, const std::vector<uint8_t> &>);
static_assert(made_over<bekstaudi::trie8, std::string_view>);
static_assert(made_over<bekstaudi::trie8, bekstaudi::view<uint8_t>>);
static_assert(made_over<bekstaudi::unit_trie, std::u16string_view>);
static_assert(std::is_move_constructible_v<bekstaudi::trie8>);

/* Unit tries of maps, listed, and entries that are errors. */
static void unit_tries_built() {
    typedef std::vector<std::pair<std::string, int32_t>> entries;
    const std::map<std::u16string, int32_t> words = {
        {u"ab", 2}, {u"a", 1}, {u"", -7}, {u"\xD83D", 3}, {u"\U0001F600", INT32_MIN}};
    const std::vector<uint8_t> bytes = bekstaudi::unit_trie::build(words);
    const bekstaudi::unit_trie trie(bytes);
    for (const auto &word : words) CHECK(trie[word.first] == word.second);
    CHECK(!trie[u"b"] && trie.longest(u"abc")->value == 2);
    const entries wanted = {
        {"", -7}, {"a", 1}, {"ab", 2}, {"\uFFFD", 3}, {"\U0001F600", INT32_MIN}};
    CHECK(trie.entries() == wanted && trie.count() == 5u);
    CHECK(!bekstaudi::unit_trie("0", 2).count());
    CHECK(trie.entries("") == wanted && trie.entries("b").empty());
    CHECK((trie.entries("a") == entries{{"a", 1}, {"ab", 2}} && trie.entries("ab") == entries{{"ab", 2}}));
    CHECK(throws<bekstaudi::invalid_utf8>([&] { trie.entries("\xFF"); }));
    std::map<std::string, int> many;
    for (int i = 0; i < 3000; i++) many[std::string(size_t(i % 40), 'x') + std::to_string(i)] = i;
    const std::vector<uint8_t> of_many = bekstaudi::unit_trie::build(many);
    CHECK(bekstaudi::unit_trie(of_many).entries("") == entries(many.begin(), many.end()));
    CHECK(bekstaudi::unit_trie(of_many).entries("xx1") == entries(many.lower_bound("xx1"), many.lower_bound("xx2")));
    std::map<std::u16string, int> units;
    for (char16_t unit = 0; unit < 300; unit++) units[std::u16string(1, unit)] = 5;
    const std::vector<uint8_t> of_units = bekstaudi::unit_trie::build(units);
    bekstaudi::unit_trie::cursor root{bekstaudi::unit_trie(of_units)};
    CHECK(root.next_units().size() == 300 && root.next_units()[299] == 299 && root.unique_value() == 5);
    CHECK(bekstaudi::unit_trie::build(std::map<std::u16string, uint64_t>{{u"a", INT32_MAX}}).size() > 0);
    for (int64_t wide : {int64_t{1} << 40, int64_t{INT32_MIN} - 1})
        CHECK(throws<bekstaudi::invalid_entries>(
            [&] { bekstaudi::unit_trie::build(std::map<std::u16string, int64_t>{{u"a", wide}}); }));
    CHECK(bekstaudi::unit_trie::build(std::map<std::u16string, int32_t>()).empty());
    CHECK(bekstaudi::unit_trie(nullptr, 0).entries().empty());
    auto refusal_of = [](std::u16string_view key) {
        const std::vector<std::pair<std::u16string_view, int>> twice = {{u"a", 1}, {key, 2}};
        try {
            bekstaudi::unit_trie::build(twice);
        } catch (const bekstaudi::invalid_entries &fault) {
            return static_cast<int>(fault.error());
        }
        return 0;
    };
    CHECK(refusal_of(u"a") == BKS_SAME_KEY && refusal_of(u"b") == 0);
    /* Keys in UTF-8 make the same trie, and keys that are not UTF-8 are rejected. */
    const std::map<std::string, int> texts = {{"", -7}, {"\u0041\u00DF\u4E16\U0001F600", 1}, {"\uD7FF\uE000\uFFFF\U0010FFFF", 2}};
    const std::map<std::u16string, int> same = {{u"", -7}, {u"\u0041\u00DF\u4E16\U0001F600", 1}, {u"\uD7FF\uE000\uFFFF\U0010FFFF", 2}};
    const std::vector<uint8_t> by_utf8 = bekstaudi::unit_trie::build(texts);
    CHECK(by_utf8 == bekstaudi::unit_trie::build(same));
    for (const auto &text : texts) CHECK(bekstaudi::unit_trie(by_utf8)[text.first] == text.second);
    CHECK(!bekstaudi::unit_trie(by_utf8)["A"] && !bekstaudi::unit_trie(by_utf8)["A\u00DF\u4E16\U0001F600!"]);
    for (const char *bad : {"\x80", "\xC1\x80", "\xC3", "\xC3(", "\xE0\x9F\xBF", "\xED\xA0\x80", "\xE4\xB8", "\xF0\x8F\xBF\xBF", "\xF4\x90\x80\x80", "\xF5\x80\x80\x80", "\xFF"})
        CHECK(throws<bekstaudi::invalid_entries>(
            [&] { bekstaudi::unit_trie::build(std::map<std::string, int>{{bad, 1}}); }));
    CHECK(refusal_of(std::u16string(65536, u'a')) == BKS_LONG_KEY);
}

/* Sets of code points and strings. */
static void text_sets() {
    const auto points = bekstaudi::code_point_set::from_points({0x61, 0x1F44B});
    const bekstaudi::text_set set(points, {"ab", "\U0001F44B\U0001F3FF", "", "b"});
    for (const char *in : {"a", "ab", "\U0001F44B", "\U0001F44B\U0001F3FF", ""}) CHECK(set.contains(in));
    for (const char *out : {"b", "aa", "\U0001F3FF", "abc", "\xFF", "a\xFF"}) CHECK(!set.contains(out));
    CHECK(set.contains(0x1F44B) && !set.contains(0x62) && !set.contains(0x110000));
    CHECK(set.longest("abc") == "ab" && set.longest("ac") == "a" && set.longest("ba").empty());
    CHECK(set.longest("\U0001F44B\U0001F3FF\U0001F3FF") == "\U0001F44B\U0001F3FF" && set.longest("").empty());
    CHECK(set.longest("a\xFF") == "a" && throws<bekstaudi::invalid_utf8>([&] { set.longest("\xFF"); }));
    CHECK(set.span("abaac") == "abaa" && set.span("bba", false) == "bb" && set.span("ba").empty());
    CHECK(set.span("a\xFF") == "a" && throws<bekstaudi::invalid_utf8>([&] { set.span("\xFF", false); }));
    const std::vector<std::string> twice = {"ab", "ab"};
    CHECK(throws<bekstaudi::invalid_entries>([&] { bekstaudi::text_set(points, twice); }));
    CHECK(bekstaudi::text_set(points, std::vector<std::string>()).longest("ab") == "a");
#ifdef __cpp_lib_char8_t
    CHECK(set.contains(u8"ab") && set.longest(u8"\u00DF").empty() && set.longest(u8"abc") == u8"ab");
    CHECK(set.span(u8"aabc") == u8"aab" && set.span(u8"aabc", false).empty());
#endif
}

/* Tries of the runs of a table, and of rows that are errors. */
template <class Value>
static void built(size_t count, uint32_t error) {
    for (bks_type type : {BKS_FAST, BKS_SMALL}) {
        std::vector<bks_row> rows;
        for (size_t i = 0; i < count; i++)
            rows.push_back({runs[i].first, runs[i].last, runs[i].value});
        std::vector<uint8_t> bytes = bekstaudi::build<Value>(rows, 0, error, type);
        const bekstaudi::trie<Value> trie(bytes);
        CHECK(trie.size_bytes() == bytes.size() && trie[0x110000] == static_cast<Value>(error));
        size_t i = 0;
        for (const bks_range &range : trie) {
            CHECK(i < count && range.last == runs[i].last && range.value == runs[i].value);
            i++;
        }
        CHECK(i == count);
    }
}

static void rows_refused() {
    auto refusal_of = [](auto build) {
        try {
            build();
        } catch (const bekstaudi::invalid_row &fault) {
            return static_cast<int>(fault.error());
        }
        return 0;
    };
    const bks_row large[] = {{0x41, 0x41, 0x100}};
    CHECK(refusal_of([&] { bekstaudi::build<uint8_t>(large); }) == BKS_WIDE_VALUE);
    CHECK(refusal_of([&] { bekstaudi::build<uint16_t>(large); }) == 0);
    const std::vector<uint8_t> bytes = bekstaudi::build<uint8_t>(std::vector<bks_row>(), 3);
    CHECK(bekstaudi::trie8(bytes)[0x41] == 3);
    const std::vector<uint8_t> listed = bekstaudi::build<uint8_t>({{0x41, 0x5A, 1}, {0x61, 0x7A, 2}});
    bekstaudi::trie8 trie;
    CHECK(trie[0x41] == 0 && trie[0x110000] == 0 && trie.begin() == trie.end());
    trie = bekstaudi::trie8(listed);
    CHECK(trie[0x41] == 1 && trie[0x7A] == 2);
}

int main(int argc, char **argv) {
    CHECK(argc == 4);
    size_t size, count = read_runs(argv[2], runs, 1 << 17);
    const uint8_t *bytes = file_bytes(argv[1], &size);
    uint32_t error = static_cast<uint32_t>(strtoul(argv[3], nullptr, 10));
    bks_trie trie;
    CHECK(bks_open(&trie, bytes, size) == BKS_OK);
    bekstaudi::view<uint8_t> all(bytes, trie.size);
    if (trie.width == 1) all_of<uint8_t>(all, count, error);
    if (trie.width == 2) all_of<uint16_t>(all, count, error);
    if (trie.width == 4) all_of<uint32_t>(all, count, error);
    if (trie.width == 1) built<uint8_t>(count, error);
    if (trie.width == 2) built<uint16_t>(count, error);
    if (trie.width == 4) built<uint32_t>(count, error);
    refused(all, trie.width);
    rows_refused();
    unit_tries();
    frozen_sets();
    unit_tries_built();
    text_sets();
    operations();
    sets_of_ranges();
    sets_of_points();
    spans();
    texts_of_all_kinds();
    CHECK(!bekstaudi::frozen_set().contains(0x41) && bekstaudi::frozen_set().span("a").empty());
    puts("all as expected");
    return 0;
}
