// bekstaudi.hpp: bekstaudi.h in C++17, as classes that are passed by value.
//
// Tries and unit tries are views of bytes, which have to stay at their address, unchanged. A set
// owns its boundaries. If a function of bekstaudi.h returns a negative number, the class throws
// std::bad_alloc or one of the errors below. If no key is a prefix of a text, or units are not a
// trie, the result is an empty optional. Link with -lbekstaudi.
//
// A text is in UTF-8 (char, and char8_t from C++20 on), UTF-16 (char16_t) or UTF-32 (char32_t).
#ifndef BEKSTAUDI_HPP
#define BEKSTAUDI_HPP

#if __cplusplus < 201703L
#error "bekstaudi.hpp: expected C++17 or newer, as by -std=c++17"
#else

#include "bekstaudi.h"

#include <cstddef>
#include <cstdint>
#include <functional>
#include <initializer_list>
#include <iterator>
#include <new>
#include <optional>
#include <stdexcept>
#include <string>
#include <string_view>
#include <tuple>
#include <type_traits>
#include <utility>
#include <vector>
#if __cplusplus >= 202002L
#include <ranges>
#endif

#ifdef __clang__
#pragma clang diagnostic push
#pragma clang diagnostic ignored "-Wweak-vtables"  // the errors below have no source file of their own
#endif

namespace bekstaudi {

/// Thrown if the bytes are not a trie of this width. status() is the first fault.
class invalid_trie : public std::invalid_argument {
public:
    explicit invalid_trie(bks_error status)
        : std::invalid_argument("bekstaudi: the bytes are not a trie of this width"), status_(status) {}
    bks_error status() const noexcept { return status_; }

private:
    bks_error status_;
};

/// Thrown if the numbers are not the boundaries of a set.
class invalid_set : public std::invalid_argument {
public:
    using std::invalid_argument::invalid_argument;
};

/// Thrown if the part of a text that is read is not UTF-8.
class invalid_utf8 : public std::invalid_argument {
public:
    invalid_utf8() : std::invalid_argument("bekstaudi: the text is not UTF-8") {}
};

/// Consecutive items of a container or an array, like std::span<const T> of C++20, with only what is
/// needed here.
template <class T>
class view {
public:
    constexpr view(const T *data, std::size_t size) noexcept
        : data_(data ? data : &none), size_(size) {}
    template <class C, class = decltype(std::data(std::declval<const C &>())),
              class = std::enable_if_t<!std::is_same_v<C, view>>>
    constexpr view(const C &items) noexcept : view(std::data(items), std::size(items)) {}
    constexpr const T *data() const noexcept { return data_; }
    constexpr std::size_t size() const noexcept { return size_; }

private:
    /// data() is never NULL: a view without items points to this one.
    static constexpr T none{};
    const T *data_;
    std::size_t size_;
};

namespace detail {

// Whether the items of an object stay in place after the object is gone. They do for a view, and
// not for a container. So only temporaries of views may be opened as tries.
#ifdef __cpp_lib_ranges
template <class C>
inline constexpr bool outlived = std::ranges::enable_borrowed_range<C>;
#else
template <class C>
inline constexpr bool outlived = false;
template <class Unit, class Traits>
inline constexpr bool outlived<std::basic_string_view<Unit, Traits>> = true;
#endif
template <class T>
inline constexpr bool outlived<view<T>> = true;

/// Enabled for a temporary container.
template <class C>
using if_temporary =
    std::enable_if_t<!outlived<C>, decltype(std::data(std::declval<const C &>()))>;

/// Returns the count that a function returned, or throws the error that it reports.
inline std::size_t answered(std::int64_t answer) {
    if (answer >= 0) return static_cast<std::size_t>(answer);
    if (answer == BKS_NO_MEMORY) throw std::bad_alloc();
    if (answer == BKS_INVALID_UTF8) throw invalid_utf8();
    if (answer == BKS_INVALID_TRIE) throw invalid_set("bekstaudi: no trie");
    throw invalid_set("bekstaudi: no set"); // BKS_INVALID_SET
}

/// Returns the units of a text in UTF-16, as C has them.
inline view<std::uint16_t> units_of(std::u16string_view text) noexcept {
    return {reinterpret_cast<const std::uint16_t *>(text.data()), text.size()};
}

/// Returns the code points of a text in UTF-32, as C has them.
inline view<std::uint32_t> points_of(std::u32string_view text) noexcept {
    return {reinterpret_cast<const std::uint32_t *>(text.data()), text.size()};
}

/// Returns a text of code points in UTF-16, or nothing if one is above 0x10FFFF.
inline std::optional<std::u16string> utf16_of(std::u32string_view text) {
    std::u16string units;
    for (char32_t c : text) {
        if (c > 0x10FFFF) return std::nullopt;
        if (c > 0xFFFF) units += static_cast<char16_t>(0xD7C0 + (c >> 10));
        units += static_cast<char16_t>(c > 0xFFFF ? 0xDC00 + (c & 0x3FF) : c);
    }
    return units;
}

/// Returns the longest prefix whose code points are all in a set, or all outside it.
template <class Set>
std::u32string_view span_of(const Set &set, std::u32string_view text, bool held) noexcept {
    std::size_t size = 0;
    while (size < text.size() && set.contains(text[size]) == held) size++;
    return text.substr(0, size);
}

#ifdef __cpp_lib_char8_t
/// Returns a text in UTF-8 as C has it.
inline std::string_view bytes_of(std::u8string_view text) noexcept {
    return {reinterpret_cast<const char *>(text.data()), text.size()};
}
#endif

/// Returns the boundaries that a call writes. The call is made again with a larger buffer if there
/// are more than `room`.
template <class Call>
std::vector<std::uint32_t> ends_of(std::size_t room, Call call) {
    std::vector<std::uint32_t> ends(room ? room : 1);
    std::size_t count = answered(call(ends.data(), ends.size()));
    if (count > ends.size()) {
        ends.resize(count);
        answered(call(ends.data(), ends.size()));
    }
    ends.resize(count);
    if (count < room / 4) ends.shrink_to_fit();
    return ends;
}

}  // namespace detail

/// A set of code points, stored as the list of its boundaries (ICU: UnicodeSet).
class code_point_set {
public:
    /// Makes the empty set.
    code_point_set() = default;

    /// Makes the set with these boundaries: {0x41, 0x5B} is A to Z. Throws invalid_set if they are
    /// not the boundaries of a set.
    explicit code_point_set(view<std::uint32_t> ends)
        : ends_(ends.data(), ends.data() + ends.size()) {
        if (!bks_set_test(ends.data(), ends.size()))
            throw invalid_set("bekstaudi: the numbers are not the boundaries of a set");
    }
    code_point_set(std::initializer_list<std::uint32_t> ends)
        : code_point_set(view<std::uint32_t>(ends.begin(), ends.size())) {}

    /// The code points from `first` to `last`, both included.
    using range = bks_interval;

    /// Makes the set of all code points in these ranges, which may be in any order and may overlap.
    /// A range whose first code point is above its last one has none, and code points above 0x10FFFF
    /// are left out. Takes O(n log n) time (ICU: uset_addRange, range by range).
    static code_point_set from_ranges(view<range> ranges) {
        return made(2 * ranges.size(), [&](std::uint32_t *ends, std::size_t room) {
            return bks_set_from_ranges(ranges.data(), ranges.size(), ends, room);
        });
    }
    static code_point_set from_ranges(std::initializer_list<range> ranges) {
        return from_ranges(view<range>(ranges.begin(), ranges.size()));
    }

    /// Makes the set of these code points, in any order: a range of integers, or a text in UTF-32.
    /// Numbers that are not from 0 to 0x10FFFF are left out.
    template <class Points>
    static code_point_set from_points(const Points &points) {
        if constexpr (std::is_convertible_v<const Points &, std::u32string_view>)
            return of_points(std::u32string_view(points));  // a literal without its final NUL
        else
            return of_points(points);
    }
    static code_point_set from_points(std::initializer_list<std::uint32_t> points) {
        return of_points(points);
    }

    /// Returns the boundaries, as C has them: the first code point in the set, the first one after it that
    /// is not, and so on.
    const std::vector<std::uint32_t> &ends() const noexcept { return ends_; }
    bool empty() const noexcept { return ends_.empty(); }

    /// Returns the ranges of the set, in ascending order. No two of them are adjacent.
    std::vector<range> ranges() const {
        std::vector<range> found;
        found.reserve(ends_.size() / 2);
        for (std::size_t i = 0; i < ends_.size(); i += 2)
            found.push_back({ends_[i], ends_[i + 1] - 1});
        return found;
    }

    /// Iterates over all code points, in order and backwards: for (std::uint32_t c : set) ..
    class iterator {
    public:
        using iterator_category = std::bidirectional_iterator_tag;
        using value_type = std::uint32_t;
        using difference_type = std::ptrdiff_t;
        using pointer = void;
        using reference = std::uint32_t;

        iterator() = default;
        reference operator*() const noexcept { return c_; }
        iterator &operator++() noexcept {
            if (++c_ == end_[1]) at(end_ + 2, true);
            return *this;
        }
        iterator &operator--() noexcept {
            if (end_ == last_ || c_ == *end_)
                at(end_ - 2, false);
            else
                --c_;
            return *this;
        }
        iterator operator++(int) noexcept {
            iterator before = *this;
            ++*this;
            return before;
        }
        iterator operator--(int) noexcept {
            iterator before = *this;
            --*this;
            return before;
        }
        friend bool operator==(const iterator &a, const iterator &b) noexcept {
            return a.end_ == b.end_ && a.c_ == b.c_;
        }
        friend bool operator!=(const iterator &a, const iterator &b) noexcept { return !(a == b); }

    private:
        friend class code_point_set;
        iterator(const std::uint32_t *end, const std::uint32_t *last) noexcept : last_(last) {
            at(end, true);
        }
        // Goes to the first or the last code point of the range whose boundaries are at `end`.
        void at(const std::uint32_t *end, bool first) noexcept {
            end_ = end;
            c_ = end == last_ ? 0x110000 : first ? *end : end[1] - 1;
        }

        const std::uint32_t *end_ = nullptr, *last_ = nullptr;
        std::uint32_t c_ = 0x110000;
    };
    iterator begin() const noexcept { return {ends_.data(), ends_.data() + ends_.size()}; }
    iterator end() const noexcept {
        return {ends_.data() + ends_.size(), ends_.data() + ends_.size()};
    }

    /// Returns the code point at this index, from 0 on in ascending order, if the set has more than so
    /// many. Takes linear time (ICU: uset_charAt).
    std::optional<std::uint32_t> nth(std::size_t index) const noexcept {
        std::uint32_t c = 0;
        if (index > 0x10FFFF) return std::nullopt;
        auto n = static_cast<std::uint32_t>(index);
        if (!bks_set_nth(of().data(), ends_.size(), n, &c)) return std::nullopt;
        return c;
    }

    /// Returns the index of a code point among those of the set, if it is in the set (ICU:
    /// uset_indexOf).
    std::optional<std::size_t> index_of(std::uint32_t c) const noexcept {
        std::uint32_t index = 0;
        if (!bks_set_index_of(of().data(), ends_.size(), c, &index)) return std::nullopt;
        return index;
    }

    /// Returns whether the set contains all code points of another one (ICU: uset_containsAll).
    bool contains_all(const code_point_set &other) const noexcept {
        return bks_set_contains_all(of().data(), ends_.size(), other.of().data(),
                                    other.ends_.size());
    }

    /// Returns whether the set contains the code point c; false above 0x10FFFF (ICU: uset_contains).
    bool contains(std::uint32_t c) const noexcept {
        return bks_set_contains(of().data(), ends_.size(), c);
    }

    /// Returns how many code points the set contains, surrogates included.
    std::size_t size() const {
        return detail::answered(bks_set_size(of().data(), ends_.size()));
    }

    /// Returns the longest prefix of a text in UTF-8 whose characters are all in the set or, if
    /// `held` is false, all outside it. An ill-formed sequence ends it. Throws invalid_utf8 if the
    /// text is not empty and does not start with a character.
    std::string_view span(std::string_view text, bool held = true) const {
        view<char> bytes(text);
        return text.substr(0, detail::answered(bks_set_span(of().data(), ends_.size(), bytes.data(),
                                                            bytes.size(), held)));
    }

    /// Returns the longest suffix of a text in UTF-8 whose characters are all in the set or, if
    /// `held` is false, all outside it. An ill-formed sequence ends it. Throws invalid_utf8 if the
    /// text is not empty and does not end with a character.
    std::string_view span_back(std::string_view text, bool held = true) const {
        view<char> bytes(text);
        return text.substr(detail::answered(bks_set_span_back(of().data(), ends_.size(),
                                                              bytes.data(), bytes.size(), held)));
    }

    /// Returns the longest prefix of a text in UTF-16 whose code points are all in the set or, if
    /// `held` is false, all outside it. An unpaired surrogate is a code point of its own.
    std::u16string_view span(std::u16string_view text, bool held = true) const {
        view<std::uint16_t> units = detail::units_of(text);
        return text.substr(
            0, bks_set_span_utf16(of().data(), ends_.size(), units.data(), units.size(), held));
    }

    /// Returns the longest prefix of a text in UTF-32 whose numbers are all in the set or, if `held`
    /// is false, all outside it. Texts of char8_t have the spans of UTF-8, from C++20 on.
    std::u32string_view span(std::u32string_view text, bool held = true) const noexcept {
        return detail::span_of(*this, text, held);
    }
#ifdef __cpp_lib_char8_t
    std::u8string_view span(std::u8string_view text, bool held = true) const {
        return text.substr(0, span(detail::bytes_of(text), held).size());
    }
    std::u8string_view span_back(std::u8string_view text, bool held = true) const {
        return text.substr(text.size() - span_back(detail::bytes_of(text), held).size());
    }
#endif

    /// Return the code points in either set, in both, in the first alone, and in exactly one (ICU:
    /// uset_addAll, uset_retainAll, uset_removeAll, uset_complementAll).
    friend code_point_set operator|(const code_point_set &a, const code_point_set &b) {
        return made(bks_set_union, a, b);
    }
    friend code_point_set operator&(const code_point_set &a, const code_point_set &b) {
        return made(bks_set_intersection, a, b);
    }
    friend code_point_set operator-(const code_point_set &a, const code_point_set &b) {
        return made(bks_set_difference, a, b);
    }
    friend code_point_set operator^(const code_point_set &a, const code_point_set &b) {
        return made(bks_set_symmetric_difference, a, b);
    }
    /// Returns the code points that are not in the set (ICU: uset_complement).
    code_point_set operator~() const {
        return made(ends_.size() + 2, [&](std::uint32_t *ends, std::size_t room) {
            return bks_set_complement(of().data(), ends_.size(), ends, room);
        });
    }

    code_point_set &operator|=(const code_point_set &other) { return *this = *this | other; }
    code_point_set &operator&=(const code_point_set &other) { return *this = *this & other; }
    code_point_set &operator-=(const code_point_set &other) { return *this = *this - other; }
    code_point_set &operator^=(const code_point_set &other) { return *this = *this ^ other; }

    /// An order for ordered containers: that of the lists of boundaries. It says nothing of subsets.
    friend bool operator<(const code_point_set &a, const code_point_set &b) noexcept {
        return a.ends_ < b.ends_;
    }
    friend bool operator==(const code_point_set &a, const code_point_set &b) noexcept {
        return a.ends_ == b.ends_;
    }
    friend bool operator!=(const code_point_set &a, const code_point_set &b) noexcept {
        return !(a == b);
    }

private:
    template <class Value>
    friend class trie;

    view<std::uint32_t> of() const noexcept { return ends_; }

    template <class Operation>
    static code_point_set made(Operation operation, const code_point_set &a,
                               const code_point_set &b) {
        return made(a.ends_.size() + b.ends_.size(), [&](std::uint32_t *ends, std::size_t room) {
            return operation(a.of().data(), a.ends_.size(), b.of().data(), b.ends_.size(), ends,
                             room);
        });
    }

    template <class Points>
    static code_point_set of_points(const Points &points) {
        using point = std::decay_t<decltype(*std::begin(points))>;
        static_assert(std::is_integral_v<point> && !is_unit<point>,
                      "from_points takes code points: units of UTF-8 and UTF-16 are none");
        std::vector<std::uint32_t> all;
        for (auto c : points)
            if (static_cast<std::uint64_t>(c) <= 0x10FFFF) all.push_back(static_cast<std::uint32_t>(c));
        return made(2 * all.size(), [&](std::uint32_t *ends, std::size_t room) {
            return bks_set_from_points(all.data(), all.size(), ends, room);
        });
    }

    /// Whether a type has the units of UTF-8 or UTF-16.
    template <class T>
    static constexpr bool is_unit = std::is_same_v<T, char> || std::is_same_v<T, char16_t>
#ifdef __cpp_char8_t
                                    || std::is_same_v<T, char8_t>
#endif
        ;

    /// The set whose boundaries a call writes, at most `room` of them.
    template <class Call>
    static code_point_set made(std::size_t room, Call call) {
        code_point_set set;
        set.ends_ = detail::ends_of(room, call);
        return set;
    }

    std::vector<std::uint32_t> ends_;
};

/// A set of code points for many look-ups, of three reads each (ICU: a frozen UnicodeSet). A move
/// copies the words, so no frozen set is ever without words.
class frozen_set {
public:
    /// Makes the empty set.
    frozen_set() : frozen_set(code_point_set()) {}
    /// Makes the frozen set of a set. Throws std::bad_alloc if an allocation fails.
    explicit frozen_set(const code_point_set &set) {
        view<std::uint32_t> ends(set.ends());
        // Each boundary is in one block, and such a block has sixteen words of its own, as the first
        // block has. Blocks without a boundary share 32 words.
        std::size_t offsets = offset_words(ends);
        std::size_t needed = offsets + 48 + 16 * (ends.size() < offsets ? ends.size() : offsets);
        do {
            words_.resize(needed);
            needed = detail::answered(
                bks_set_freeze(ends.data(), ends.size(), words_.data(), words_.size()));
        } while (needed > words_.size());
        words_.resize(needed);
    }
    frozen_set(const frozen_set &) = default;
    frozen_set &operator=(const frozen_set &) = default;

    /// Returns the words, in the layout of bks_set_freeze: store them, or pass them to C.
    const std::vector<std::uint64_t> &words() const noexcept { return words_; }

    /// Returns whether the set contains the code point c; false above 0x10FFFF. Inline (ICU: uset_contains).
    bool contains(std::uint32_t c) const noexcept { return bks_frozen_has(words_.data(), c); }

    /// Returns the longest prefix of a text in UTF-8 whose characters are all in the set or, if
    /// `held` is false, all outside it. An ill-formed sequence ends it. Throws invalid_utf8 if the
    /// text is not empty and does not start with a character.
    std::string_view span(std::string_view text, bool held = true) const {
        view<char> bytes(text);
        return {text.data(), detail::answered(bks_frozen_span(words_.data(), words_.size(),
                                                              bytes.data(), bytes.size(), held))};
    }

    /// Returns the longest suffix of a text in UTF-8 whose characters are all in the set or, if
    /// `held` is false, all outside it. An ill-formed sequence ends it. Throws invalid_utf8 if the
    /// text is not empty and does not end with a character.
    std::string_view span_back(std::string_view text, bool held = true) const {
        view<char> bytes(text);
        return text.substr(detail::answered(bks_frozen_span_back(
            words_.data(), words_.size(), bytes.data(), bytes.size(), held)));
    }

    /// Returns the longest prefix of a text in UTF-8 whose characters are all in the set or, if
    /// `held` is false, all outside it. An ill-formed sequence counts as U+FFFD.
    std::string_view span_lossy(std::string_view text, bool held = true) const {
        view<char> bytes(text);
        return text.substr(0, bks_frozen_span_lossy(words_.data(), words_.size(), bytes.data(),
                                                    bytes.size(), held));
    }

    /// Returns the longest suffix of a text in UTF-8 whose characters are all in the set or, if
    /// `held` is false, all outside it. An ill-formed sequence counts as U+FFFD.
    std::string_view span_back_lossy(std::string_view text, bool held = true) const {
        view<char> bytes(text);
        return text.substr(bks_frozen_span_back_lossy(words_.data(), words_.size(), bytes.data(),
                                                      bytes.size(), held));
    }

    /// Returns the longest prefix of a text in UTF-16 whose code points are all in the set or, if
    /// `held` is false, all outside it. An unpaired surrogate is a code point of its own.
    std::u16string_view span(std::u16string_view text, bool held = true) const {
        view<std::uint16_t> units = detail::units_of(text);
        return text.substr(0, bks_frozen_span_utf16(words_.data(), words_.size(), units.data(),
                                                    units.size(), held));
    }

    /// Returns the longest prefix of a text in UTF-32 whose numbers are all in the set or, if `held`
    /// is false, all outside it. Texts of char8_t have the spans of UTF-8, from C++20 on.
    std::u32string_view span(std::u32string_view text, bool held = true) const noexcept {
        return detail::span_of(*this, text, held);
    }
#ifdef __cpp_lib_char8_t
    std::u8string_view span(std::u8string_view text, bool held = true) const {
        return text.substr(0, span(detail::bytes_of(text), held).size());
    }
    std::u8string_view span_back(std::u8string_view text, bool held = true) const {
        return text.substr(text.size() - span_back(detail::bytes_of(text), held).size());
    }
    std::u8string_view span_lossy(std::u8string_view text, bool held = true) const {
        return text.substr(0, span_lossy(detail::bytes_of(text), held).size());
    }
    std::u8string_view span_back_lossy(std::u8string_view text, bool held = true) const {
        return text.substr(text.size() - span_back_lossy(detail::bytes_of(text), held).size());
    }
#endif

private:
    /// Returns how many words the offsets take. They end after the block of the last boundary below
    /// 0x110000: the offset after it is that of all later blocks.
    static std::size_t offset_words(view<std::uint32_t> ends) noexcept {
        std::size_t count = ends.size();
        if (count > 0 && ends.data()[count - 1] == 0x110000) count--;
        std::size_t block = count > 0 ? ends.data()[count - 1] / 1024 : 0;
        return block + 2 < 1088 ? block + 2 : 1088;
    }

    std::vector<std::uint64_t> words_;
};

/// A trie whose values have 8, 16 or 32 bits (ICU: UCPTrie). The bytes that it was opened from have
/// to stay at their address, unchanged, while it or a copy of it is used.
template <class Value>
class trie {
    static_assert(std::is_same_v<Value, std::uint8_t> || std::is_same_v<Value, std::uint16_t> ||
                      std::is_same_v<Value, std::uint32_t>,
                  "the values of a trie have 8, 16 or 32 bits");

public:
    /// Makes a trie without cells, whose values are all 0.
    trie() = default;

    /// Opens the trie at the start of the bytes. Throws invalid_trie if there is none, or one of
    /// another width (BKS_OTHER_WIDTH).
    trie(const void *bytes, std::size_t size) {
        auto status = static_cast<bks_error>(bks_open(&trie_, bytes ? bytes : "", size));
        if (status == BKS_OK && trie_.width != sizeof(Value)) status = BKS_OTHER_WIDTH;
        if (status != BKS_OK) throw invalid_trie(status);
    }
    template <class C, class = decltype(std::data(std::declval<const C &>())),
              class = std::enable_if_t<!std::is_same_v<C, trie>>>
    explicit trie(const C &bytes)
        : trie(std::data(bytes), std::size(bytes) * sizeof *std::data(bytes)) {}
    template <class C, class = detail::if_temporary<C>>
    explicit trie(const C &&bytes) = delete;

    /// Return the trie as C sees it, and how many of the bytes it takes.
    const bks_trie &as_c() const noexcept { return trie_; }
    std::size_t size_bytes() const noexcept { return trie_.size; }

    /// Returns the value of c, or the error value if c is above 0x10FFFF. Inline, like bks_get8,
    /// bks_get16 and bks_get32 (ICU: ucptrie_get).
    Value operator[](std::uint32_t c) const noexcept {
        if constexpr (sizeof(Value) == 1)
            return bks_get8(&trie_, c);
        else if constexpr (sizeof(Value) == 2)
            return bks_get16(&trie_, c);
        else
            return bks_get32(&trie_, c);
    }

    /// Returns the values of the characters of a UTF-8 text, in order. Each ill-formed part has the
    /// error value, as in bks_trie8_copy_utf8 (ICU: UCPTRIE_FAST_U8_NEXT in a loop).
    std::vector<Value> values_of(std::string_view text) const {
        std::vector<Value> values(text.size());
        values.resize(copy_values(text, values.data(), values.size()).values);
        return values;
    }

    /// Writes these values to a buffer, as many as fit. Returns how many it wrote, and how many bytes
    /// of the text these are for: go on after them with the next buffer.
    struct copied {
        std::size_t values, bytes;
    };
    copied copy_values(std::string_view text, Value *values, std::size_t room) const noexcept {
        copied done = {0, 0};
        done.values = of_width(bks_trie8_copy_utf8, bks_trie16_copy_utf8, bks_trie32_copy_utf8)(
            &trie_, text.data(), text.size(), values, room, &done.bytes);
        return done;
    }

    /// Returns the values of the code points of a text in UTF-16, in order. An unpaired surrogate is a
    /// code point of its own (ICU: U16_NEXT and ucptrie_get in a loop).
    std::vector<Value> values_of(std::u16string_view text) const {
        view<std::uint16_t> units = detail::units_of(text);
        std::vector<Value> values(text.size());
        values.resize(of_width(bks_trie8_get_utf16, bks_trie16_get_utf16, bks_trie32_get_utf16)(
            &trie_, units.data(), units.size(), values.data(), values.size()));
        return values;
    }

    /// Returns the values of the numbers of a text in UTF-32, in order. Texts of char8_t have the values
    /// of UTF-8, from C++20 on.
    std::vector<Value> values_of(std::u32string_view text) const {
        view<std::uint32_t> points = detail::points_of(text);
        std::vector<Value> values(text.size());
        of_width(bks_trie8_get_many, bks_trie16_get_many, bks_trie32_get_many)(
            &trie_, points.data(), points.size(), values.data(), values.size());
        return values;
    }
#ifdef __cpp_lib_char8_t
    std::vector<Value> values_of(std::u8string_view text) const {
        return values_of(detail::bytes_of(text));
    }
    copied copy_values(std::u8string_view text, Value *values, std::size_t room) const noexcept {
        return copy_values(detail::bytes_of(text), values, room);
    }
#endif

    /// Returns whether the ranges are the longest runs of equal values, as in every trie that ICU or
    /// this library built.
    bool is_coherent() const noexcept { return bks_trie_is_coherent(&trie_); }

    /// Returns the range of one value that starts at c (ICU: ucptrie_getRange). There is none if c
    /// is above 0x10FFFF, or if the trie lacks a cell.
    std::optional<bks_range> range(std::uint32_t c) const noexcept {
        bks_range found = bks_trie_range(&trie_, c);
        return found.found ? std::optional<bks_range>(found) : std::nullopt;
    }

    /// Iterates over all ranges, in order: for (const bks_range &range : trie) ..
    class iterator {
    public:
        using iterator_category = std::input_iterator_tag;
        using value_type = bks_range;
        using difference_type = std::ptrdiff_t;
        using pointer = const bks_range *;
        using reference = const bks_range &;

        iterator() = default;
        explicit iterator(const bks_trie &of) noexcept : trie_(of) { ask(0); }
        reference operator*() const noexcept { return ranges_[at_]; }
        pointer operator->() const noexcept { return &ranges_[at_]; }
        iterator &operator++() noexcept {
            if (++at_ == room) ask(ranges_[room - 1].last + 1);
            return *this;
        }
        iterator operator++(int) noexcept {
            iterator before = *this;
            ++*this;
            return before;
        }
        // Two iterators at the end are equal. Others are equal if they are at the same range.
        friend bool operator==(const iterator &a, const iterator &b) noexcept {
            if (a.is_at_end() || b.is_at_end()) return a.is_at_end() == b.is_at_end();
            return a->first == b->first;
        }
        friend bool operator!=(const iterator &a, const iterator &b) noexcept { return !(a == b); }

    private:
        // How many ranges are fetched at once.
        static constexpr std::size_t room = 32;

        void ask(std::uint32_t c) noexcept {
            count_ = bks_trie_ranges(&trie_, c, ranges_, room);
            at_ = 0;
        }
        bool is_at_end() const noexcept { return at_ == count_; }

        bks_trie trie_ = {};
        std::size_t at_ = 0, count_ = 0;
        bks_range ranges_[room] = {};
    };
    iterator begin() const noexcept { return iterator(trie_); }
    iterator end() const noexcept { return iterator(); }

    /// Returns the set of the code points in ranges of this value.
    code_point_set set_of(Value value) const {
        code_point_set set;
        auto call = [&](std::uint32_t *ends, std::size_t room) {
            return bks_trie_set(&trie_, value, ends, room);
        };
        set.ends_ = detail::ends_of(256, call);
        return set;
    }

private:
    /// Returns the one of three functions that is for the width of the values.
    template <class Of8, class Of16, class Of32>
    static constexpr auto of_width([[maybe_unused]] Of8 of_8, [[maybe_unused]] Of16 of_16,
                                   [[maybe_unused]] Of32 of_32) noexcept {
        if constexpr (sizeof(Value) == 1)
            return of_8;
        else if constexpr (sizeof(Value) == 2)
            return of_16;
        else
            return of_32;
    }

    bks_trie trie_ = {};
};

/// Thrown by build if no trie can be built from the rows.
class invalid_row : public std::invalid_argument {
public:
    explicit invalid_row(bks_error error)
        : std::invalid_argument(error == BKS_WIDE_VALUE
                                    ? "bekstaudi: a value has more bits than the trie's"
                                    : "bekstaudi: the trie of these rows would be too large"),
          error_(error) {}
    /// Returns BKS_WIDE_VALUE if a value has more bits than the trie's, or BKS_TOO_LARGE.
    bks_error error() const noexcept { return error_; }

private:
    bks_error error_;
};

/// Returns the bytes of a trie built from the rows in ICU's binary form, as bks_trie_build writes
/// them. Throws invalid_row.
template <class Value>
std::vector<std::uint8_t> build(view<bks_row> rows, std::uint32_t default_value = 0,
                                std::uint32_t error_value = 0, bks_type type = BKS_FAST) {
    std::vector<std::uint8_t> bytes(1 << 14);
    for (;;) {
        std::int64_t size = bks_trie_build(rows.data(), rows.size(), default_value, error_value,
                                           type, sizeof(Value), bytes.data(), bytes.size());
        if (size == BKS_NO_MEMORY) throw std::bad_alloc();
        if (size < 0) throw invalid_row(static_cast<bks_error>(size));
        bool fits = static_cast<std::size_t>(size) <= bytes.size();
        bytes.resize(static_cast<std::size_t>(size));
        if (fits) return bytes;
    }
}
template <class Value>
std::vector<std::uint8_t> build(std::initializer_list<bks_row> rows,
                                std::uint32_t default_value = 0, std::uint32_t error_value = 0,
                                bks_type type = BKS_FAST) {
    return build<Value>(view<bks_row>(rows.begin(), rows.size()), default_value, error_value, type);
}

/// Thrown if no unit trie can be built from the entries.
class invalid_entries : public std::invalid_argument {
public:
    explicit invalid_entries(bks_error error)
        : std::invalid_argument("bekstaudi: no unit trie of these entries"), error_(error) {}
    /// Returns BKS_LONG_KEY; BKS_SAME_KEY if two entries have the same key; BKS_INVALID_UTF8 if a key is
    /// not UTF-8 or not UTF-32; BKS_WIDE_VALUE if a value is not a signed 32-bit number; or BKS_TOO_LARGE.
    bks_error error() const noexcept { return error_; }

private:
    bks_error error_;
};

/// A map from keys of 16-bit units to numbers (ICU: UCharsTrie). The units, two bytes each, have to
/// stay at their address, unchanged, while it or a copy of it is used. Any bytes are accepted.
class unit_trie {
public:
    /// A prefix of a text that is a key: its size in the items of the text (units or bytes), and its
    /// value.
    struct match {
        std::size_t size;
        std::int32_t value;
    };

    unit_trie(const void *units, std::size_t size) noexcept
        : units_(static_cast<const std::uint8_t *>(units), size) {}
    template <class C, class = decltype(std::data(std::declval<const C &>())),
              class = std::enable_if_t<!std::is_same_v<C, unit_trie>>>
    explicit unit_trie(const C &units) noexcept
        : unit_trie(std::data(units), std::size(units) * sizeof *std::data(units)) {}
    template <class C, class = detail::if_temporary<C>>
    explicit unit_trie(const C &&units) = delete;

    /// Returns the units of a trie built from entries in any order, as bks_units_build and
    /// bks_units_build_utf8 write them. The entries are a map, or any other range of pairs of a text
    /// and an integer. Throws invalid_entries.
    template <class Entries>
    static std::vector<std::uint8_t> build(const Entries &entries) {
        using key_of = std::tuple_element_t<0, std::decay_t<decltype(*std::begin(entries))>>;
        using unit = typename decltype(text_of(std::declval<const key_of &>()))::value_type;
        constexpr bool is_utf8 = std::is_same_v<unit, char>;
        std::basic_string<unit> keys;
        std::vector<std::size_t> lengths;
        std::vector<std::int32_t> values;
        for (const auto &[key, value] : entries) {
            const auto units = text_of(key);
            keys.append(units);
            lengths.push_back(units.size());
            if (!is_of_32_bits(value)) throw invalid_entries(BKS_WIDE_VALUE);
            values.push_back(static_cast<std::int32_t>(value));
        }
        view<std::size_t> sizes(lengths);
        view<std::int32_t> numbers(values);
        std::vector<std::uint8_t> bytes(4 * keys.size() + 32 * lengths.size() + 1);
        std::int64_t size;
        if constexpr (is_utf8)
            size = bks_units_build_utf8(keys.data(), keys.size(), sizes.data(), sizes.size(),
                                        numbers.data(), numbers.size(), bytes.data(), bytes.size());
        else
            size = bks_units_build(detail::units_of(keys).data(), keys.size(), sizes.data(),
                                   sizes.size(), numbers.data(), numbers.size(), bytes.data(),
                                   bytes.size());
        if (size == BKS_NO_MEMORY) throw std::bad_alloc();
        if (size < 0) throw invalid_entries(static_cast<bks_error>(size));
        bytes.resize(static_cast<std::size_t>(size));
        return bytes;
    }

    /// Returns how many entries there are, at most 2^63 - 1, or nothing if the units are not a trie.
    std::optional<std::uint64_t> count() const {
        std::int64_t answer = bks_units_count(units_.data(), units_.size());
        if (answer == BKS_NO_MEMORY) throw std::bad_alloc();
        return answer < 0 ? std::nullopt
                          : std::optional<std::uint64_t>(static_cast<std::uint64_t>(answer));
    }

    /// Returns all entries in unit order, each key as UTF-8, with each lone surrogate as U+FFFD. A
    /// few untrusted units can have very many entries: call count() first. Throws std::length_error
    /// if there are more than any memory can hold.
    std::vector<std::pair<std::string, std::int32_t>> entries() const {
        std::vector<bks_word> words(1);
        std::string texts(1, '\0');
        for (;;) {
            std::size_t size = 0;
            std::int64_t answer =
                bks_units_list(units_.data(), units_.size(), words.data(), words.size(),
                               texts.data(), texts.size(), &size);
            if (answer == BKS_NO_MEMORY) throw std::bad_alloc();
            if (answer < 0) throw std::length_error("bekstaudi: more entries than can be listed");
            std::size_t count = static_cast<std::size_t>(answer);
            if (count <= words.size() && size <= texts.size()) {
                words.resize(count);
                break;
            }
            words.resize(count ? count : 1);
            texts.resize(size ? size : 1);
        }
        std::vector<std::pair<std::string, std::int32_t>> all;
        all.reserve(words.size());
        for (const bks_word &word : words)
            all.emplace_back(texts.substr(word.start, word.size), word.value);
        return all;
    }

    /// Returns the entries whose keys start with a UTF-8 text, in unit order, each key whole, as in
    /// entries(). A few untrusted units can have very many entries: call count() first. Throws
    /// invalid_utf8 if the text is not UTF-8.
    std::vector<std::pair<std::string, std::int32_t>> entries(std::string_view prefix) const {
        std::vector<std::pair<std::string, std::int32_t>> all;
        std::vector<bks_word> words(64);
        std::string texts(1024, '\0');
        view<char> start(prefix);
        for (;;) {
            std::size_t size = 0;
            std::int64_t answer = bks_units_list_below(
                units_.data(), units_.size(), start.data(), start.size(), all.size(), words.data(),
                words.size(), texts.data(), texts.size(), &size);
            if (answer == BKS_INVALID_UTF8) throw invalid_utf8();
            if (answer < 0) throw std::bad_alloc();
            std::size_t count = static_cast<std::size_t>(answer);
            for (std::size_t i = 0; i < count; i++)
                all.emplace_back(texts.substr(words[i].start, words[i].size), words[i].value);
            if (count < words.size() && size <= texts.size()) return all;
            // Larger pages, so that the entries that are skipped again take no more time in all.
            words.resize(2 * words.size());
            texts.resize(2 * texts.size() < size ? size : 2 * texts.size());
        }
    }

    /// Returns the value of a key, or nothing if it is not there (ICU: UCharsTrie::reset, next and
    /// getValue).
    std::optional<std::int32_t> operator[](std::u16string_view key) const noexcept {
        std::int32_t value = 0;
        view<std::uint16_t> units = detail::units_of(key);
        bool found =
            bks_units_get(units_.data(), units_.size(), units.data(), units.size(), &value);
        return found ? std::optional<std::int32_t>(value) : std::nullopt;
    }

    /// Returns the longest key that is a prefix of a UTF-16 text, or nothing if no key is.
    std::optional<match> longest(std::u16string_view text) const noexcept {
        std::int32_t value = 0;
        view<std::uint16_t> units = detail::units_of(text);
        std::int64_t size =
            bks_units_longest(units_.data(), units_.size(), units.data(), units.size(), &value);
        if (size < 0) return std::nullopt;
        return match{static_cast<std::size_t>(size), value};
    }

    /// Returns the longest key that is a prefix of a UTF-8 text, or nothing if no key is. Reads no
    /// more of the text than some key continues with. An ill-formed sequence ends the text. Throws
    /// invalid_utf8 if the text is not empty and does not start with a character.
    std::optional<match> longest(std::string_view text) const {
        std::int32_t value = 0;
        view<char> bytes(text);
        std::int64_t size = bks_units_longest_utf8(units_.data(), units_.size(), bytes.data(),
                                                   bytes.size(), &value);
        if (size == BKS_INVALID_UTF8) throw invalid_utf8();
        if (size < 0) return std::nullopt;
        return match{static_cast<std::size_t>(size), value};
    }

    /// Returns the value of a key in UTF-8, or nothing if it is not UTF-8 or not there.
    std::optional<std::int32_t> get(std::string_view key) const noexcept {
        std::int32_t value = 0;
        view<char> bytes(key);
        bool found =
            bks_units_get_utf8(units_.data(), units_.size(), bytes.data(), bytes.size(), &value);
        return found ? std::optional<std::int32_t>(value) : std::nullopt;
    }
    std::optional<std::int32_t> operator[](std::string_view key) const noexcept { return get(key); }

    /// Returns the value of a key in UTF-32, or nothing if it is not there.
    std::optional<std::int32_t> operator[](std::u32string_view key) const {
        std::optional<std::u16string> units = detail::utf16_of(key);
        return units ? (*this)[std::u16string_view(*units)] : std::nullopt;
    }

    /// Returns all keys that are prefixes of a UTF-16 text, the shortest first.
    std::vector<match> prefixes(std::u16string_view text) const {
        view<std::uint16_t> units = detail::units_of(text);
        return matches_of([&](bks_prefix *found, std::size_t room) {
            return static_cast<std::int64_t>(bks_units_prefixes(
                units_.data(), units_.size(), units.data(), units.size(), found, room));
        });
    }

    /// Returns all keys that are prefixes of a UTF-8 text, the shortest first. A key that ends within
    /// a character does not count. Reads no more of the text than some key continues with. An
    /// ill-formed sequence ends the text. Throws invalid_utf8 if the text is not empty and does not
    /// start with a character.
    std::vector<match> prefixes(std::string_view text) const {
        view<char> bytes(text);
        return matches_of([&](bks_prefix *found, std::size_t room) {
            return bks_units_prefixes_utf8(units_.data(), units_.size(), bytes.data(), bytes.size(),
                                           found, room);
        });
    }

    /// Returns the longest key that is a prefix of a text in UTF-32, or nothing if there is none.
    std::optional<match> longest(std::u32string_view text) const {
        std::optional<match> last;
        each_prefix(text, [&](match found) { last = found; });
        return last;
    }
    /// Returns all keys that are prefixes of a text in UTF-32, the shortest first.
    std::vector<match> prefixes(std::u32string_view text) const {
        std::vector<match> all;
        each_prefix(text, [&](match found) { all.push_back(found); });
        return all;
    }

#ifdef __cpp_lib_char8_t
    /// Texts of char8_t have the functions of UTF-8.
    std::optional<std::int32_t> get(std::u8string_view key) const noexcept {
        return get(detail::bytes_of(key));
    }
    std::optional<std::int32_t> operator[](std::u8string_view key) const noexcept { return get(key); }
    std::optional<match> longest(std::u8string_view text) const {
        return longest(detail::bytes_of(text));
    }
    std::vector<match> prefixes(std::u8string_view text) const {
        return prefixes(detail::bytes_of(text));
    }
    std::vector<std::pair<std::string, std::int32_t>> entries(std::u8string_view prefix) const {
        return entries(detail::bytes_of(prefix));
    }
#endif

    /// Moves unit by unit from the root (ICU: UCharsTrie::next, getValue).
    class cursor {
    public:
        explicit cursor(const unit_trie &trie) noexcept : units_(trie.units_) {}
        bks_step step(char16_t unit) noexcept {
            return static_cast<bks_step>(
                bks_units_step(units_.data(), units_.size(), &place_, unit));
        }
        std::optional<std::int32_t> value() const noexcept {
            std::int32_t value = 0;
            bool found = bks_units_value(units_.data(), units_.size(), &place_, &value);
            return found ? std::optional<std::int32_t>(value) : std::nullopt;
        }

        // Returns the units that can come next in some key. They ascend if the units are a trie
        // (ICU: getNextUChars).
        std::vector<char16_t> next_units() const {
            std::vector<char16_t> next(16);
            for (;;) {
                std::int64_t answer = bks_units_next(
                    units_.data(), units_.size(), &place_,
                    reinterpret_cast<std::uint16_t *>(next.data()), next.size());
                if (answer < 0) throw std::bad_alloc();
                bool fits = static_cast<std::size_t>(answer) <= next.size();
                next.resize(static_cast<std::size_t>(answer));
                if (fits) return next;
            }
        }

        // Returns the value of all keys that start with the units so far, or nothing if their values
        // differ or there is no such key (ICU: hasUniqueValue).
        std::optional<std::int32_t> unique_value() const {
            std::int32_t value = 0;
            std::int64_t answer = bks_units_unique(units_.data(), units_.size(), &place_, &value);
            if (answer < 0) throw std::bad_alloc();
            return answer ? std::optional<std::int32_t>(value) : std::nullopt;
        }

    private:
        view<std::uint8_t> units_;
        bks_cursor place_ = {};
    };

private:
    /// Return a key in UTF-8 or UTF-16.
    static std::string_view text_of(std::string_view key) noexcept { return key; }
    static std::u16string_view text_of(std::u16string_view key) noexcept { return key; }
    static std::u16string text_of(std::u32string_view key) {
        std::optional<std::u16string> units = detail::utf16_of(key);
        if (!units) throw invalid_entries(BKS_INVALID_UTF8);
        return *std::move(units);
    }
#ifdef __cpp_lib_char8_t
    static std::string_view text_of(std::u8string_view key) noexcept { return detail::bytes_of(key); }
#endif

    /// Reports each key that is a prefix of a text of code points, the shortest first.
    template <class Report>
    void each_prefix(std::u32string_view text, Report report) const {
        cursor at(*this);
        for (std::size_t size = 0;; size++) {
            if (std::optional<std::int32_t> value = at.value()) report(match{size, *value});
            if (size == text.size()) return;
            std::optional<std::u16string> units = detail::utf16_of(text.substr(size, 1));
            if (!units) return;
            for (char16_t unit : *units)
                if (at.step(unit) == BKS_NO_MATCH) return;
        }
    }

    /// Returns whether an integer is a signed 32-bit number.
    template <class Number>
    static constexpr bool is_of_32_bits(Number number) noexcept {
        static_assert(std::is_integral_v<Number>, "the values of a unit trie are whole numbers");
        if constexpr (std::is_unsigned_v<Number>)
            return static_cast<std::uint64_t>(number) <= INT32_MAX;
        else
            return static_cast<std::int64_t>(number) >= INT32_MIN &&
                   static_cast<std::int64_t>(number) <= INT32_MAX;
    }

    /// Returns the prefixes that a call finds.
    template <class Call>
    static std::vector<match> matches_of(Call call) {
        std::vector<bks_prefix> found(8);
        std::size_t count = 0;
        for (;;) {
            std::int64_t answer = call(found.data(), found.size());
            if (answer < 0) throw invalid_utf8();
            count = static_cast<std::size_t>(answer);
            if (count <= found.size()) break;
            found.resize(count);
        }
        std::vector<match> all;
        all.reserve(count);
        for (std::size_t i = 0; i < count; i++) all.push_back({found[i].length, found[i].value});
        return all;
    }

    view<std::uint8_t> units_;
};

/// A frozen set of code points and strings, such as sequences of emoji (ICU: a frozen UnicodeSet with
/// strings). A text of exactly one character is a member if the code points contain it. Any other text
/// is a member if it is one of the strings.
class text_set {
public:
    /// Makes the set of these code points and strings, which are in UTF-8 and in any order. A string of
    /// exactly one character does not count: put it among the code points. Throws invalid_entries if a
    /// string occurs twice or is not UTF-8.
    template <class Strings>
    text_set(const code_point_set &code_points, const Strings &strings)
        : code_points_(code_points), strings_(unit_trie::build(entries_of(strings))) {}
    text_set(const code_point_set &code_points, std::initializer_list<std::string_view> strings)
        : code_points_(code_points), strings_(unit_trie::build(entries_of(strings))) {}

    bool contains(std::uint32_t c) const noexcept { return code_points_.contains(c); }

    /// Returns whether a text in UTF-8 is a member; false if it is not UTF-8.
    bool contains(std::string_view text) const noexcept {
        view<std::uint64_t> words(code_points_.words());
        view<char> bytes(text);
        return bks_text_set_contains(words.data(), words.size(), strings_.data(), strings_.size(),
                                     bytes.data(), bytes.size());
    }

    /// Returns the longest member that is a prefix of a text in UTF-8, or an empty text if none is. An
    /// ill-formed sequence ends the text. Throws invalid_utf8 if the text is not empty and does not
    /// start with a character.
    std::string_view longest(std::string_view text) const {
        view<std::uint64_t> words(code_points_.words());
        view<char> bytes(text);
        return text.substr(0, detail::answered(bks_text_set_longest(
                                  words.data(), words.size(), strings_.data(), strings_.size(),
                                  bytes.data(), bytes.size())));
    }

    /// Returns the span at the start of a text in UTF-8. It goes on by the longest member at each
    /// position or, if `held` is false, by one character at each position, until a member starts there.
    /// An ill-formed sequence ends it. Throws invalid_utf8 if the text is not empty and does not start
    /// with a character.
    std::string_view span(std::string_view text, bool held = true) const {
        view<std::uint64_t> words(code_points_.words());
        view<char> bytes(text);
        return text.substr(0, detail::answered(bks_text_set_span(
                                  words.data(), words.size(), strings_.data(), strings_.size(),
                                  bytes.data(), bytes.size(), held)));
    }
#ifdef __cpp_lib_char8_t
    bool contains(std::u8string_view text) const noexcept { return contains(detail::bytes_of(text)); }
    std::u8string_view span(std::u8string_view text, bool held = true) const {
        return text.substr(0, span(detail::bytes_of(text), held).size());
    }
    std::u8string_view longest(std::u8string_view text) const {
        return text.substr(0, longest(detail::bytes_of(text)).size());
    }
#endif

private:
    template <class Strings>
    static std::vector<std::pair<std::string_view, std::int32_t>> entries_of(const Strings &strings) {
        std::vector<std::pair<std::string_view, std::int32_t>> entries;
        for (std::string_view text : strings) entries.emplace_back(text, 0);
        return entries;
    }

    frozen_set code_points_;
    std::vector<std::uint8_t> strings_;
};

using trie8 = trie<std::uint8_t>;
using trie16 = trie<std::uint16_t>;
using trie32 = trie<std::uint32_t>;

}  // namespace bekstaudi

template <>
struct std::hash<bekstaudi::code_point_set> {
    std::size_t operator()(const bekstaudi::code_point_set &set) const noexcept {
        std::size_t sum = set.ends().size();
        for (std::uint32_t end : set.ends()) sum = (sum ^ end) * 0x9E3779B97F4A7C15;
        return sum;
    }
};

#ifdef __clang__
#pragma clang diagnostic pop
#endif

#endif
#endif
