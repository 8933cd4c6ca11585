// Lists of words: the value of each key, the longest key at each character of a text, and what each
// structure takes. Ours and ICU's unit tries map UTF-16, which ours also reads as UTF-8.
#include "../../c/bekstaudi.h"
#include "../driver/calls.hpp"
#include "../driver/lists.hpp"
#include "peers.hpp"
#include <algorithm>
#include <cstdio>
#include <datrie/trie.h>
#include <marisa.h>
#include <memory>
#include <set>
#include <unicode/ucharstrie.h>
#include <unicode/ucharstriebuilder.h>
#include <unicode/utf16.h>
#include <unordered_map>

using icu::UCharsTrie;
using icu::UCharsTrieBuilder;
using icu::UnicodeString;
using std::string;
using std::vector;

// What a look-up without a key has. No key has this value.
enum { NONE = 7 };

// A list, as each library reads it, and the text of its keys with the start of each character.
struct Words {
    const List &list;
    vector<string> keys;
    vector<vector<AlphaChar>> alpha_keys;
    vector<uint16_t> units;
    string bytes;
    vector<uint32_t> unit_starts, byte_starts;

    explicit Words(const List &list) : list(list), units(text_of(list)) {
        for (const UnicodeString &key : list.keys) {
            keys.emplace_back();
            key.toUTF8String(keys.back());
            const uint8_t *start = reinterpret_cast<const uint8_t *>(keys.back().c_str());
            alpha_keys.emplace_back(start, start + keys.back().size() + 1);
        }
        for (const string &key : keys) bytes += key + ' ';
        for (size_t i = 0; i < units.size(); i++)
            if (!U16_IS_TRAIL(units[i])) unit_starts.push_back(i);
        for (size_t i = 0; i < bytes.size(); i++)
            if ((bytes[i] & 0xC0) != 0x80) byte_starts.push_back(i);
    }
};

static vector<uint8_t> built_by_us(const Words &words) {
    string joined;
    vector<size_t> lengths;
    for (const string &key : words.keys) joined += key, lengths.push_back(key.size());
    vector<uint8_t> units(4 * joined.size() + 32 * lengths.size());
    const int64_t size =
        bks_units_build_utf8(PARTS(joined), PARTS(lengths), PARTS(words.list.values), PARTS(units));
    if (size < 0 || size_t(size) > units.size()) fail(words.list.name + ": no unit trie is built");
    return vector<uint8_t>(units.begin(), units.begin() + size);
}

struct Ours {
    static constexpr const char *name = "ours";
    static constexpr bool in_place = true;
    const Words &words;
    const vector<uint8_t> units = built_by_us(words);

    uint64_t keys() const {
        uint64_t sum = 0;
        for (const string &key : words.keys) {
            int32_t value = NONE;
            bks_units_get_utf8(PARTS(units), PARTS(key), &value);
            sum = mixed(sum, value);
        }
        return sum;
    }

    uint64_t longest() const {
        uint64_t sum = 0;
        for (uint32_t at : words.byte_starts) {
            int32_t value = NONE;
            bks_units_longest_utf8(PARTS(units), words.bytes.data() + at, words.bytes.size() - at,
                                   &value);
            sum = mixed(sum, value);
        }
        return sum;
    }

    size_t stored() const { return units.size(); }
};

struct OursUtf16 {
    static constexpr const char *name = "ours, UTF-16";
    const Words &words;
    const vector<uint8_t> units = built_by_us(words);

    uint64_t keys() const {
        uint64_t sum = 0;
        size_t start = 0;
        for (uint32_t end : words.list.ends) {
            int32_t value = NONE;
            bks_units_get(PARTS(units), words.list.joined.data() + start, end - start, &value);
            sum = mixed(sum, value);
            start = end;
        }
        return sum;
    }

    uint64_t longest() const {
        uint64_t sum = 0;
        for (uint32_t at : words.unit_starts) {
            int32_t value = NONE;
            bks_units_longest(PARTS(units), words.units.data() + at, words.units.size() - at,
                              &value);
            sum = mixed(sum, value);
        }
        return sum;
    }
};

static UnicodeString built_by_icu(const Words &words) {
    UErrorCode error = U_ZERO_ERROR;
    UCharsTrieBuilder builder(error);
    const List &list = words.list;
    for (size_t i = 0; i < list.keys.size(); i++) builder.add(list.keys[i], list.values[i], error);
    UnicodeString built;
    builder.buildUnicodeString(USTRINGTRIE_BUILD_FAST, built, error);
    if (U_FAILURE(error)) fail(u_errorName(error));
    // The builder still owns the buffer, so return a copy.
    return UnicodeString(built.getBuffer(), built.length());
}

struct Icu {
    static constexpr const char *name = "ICU, UTF-16";
    static constexpr bool in_place = true;
    const Words &words;
    const UnicodeString units = built_by_icu(words);

    uint64_t keys() const {
        UCharsTrie trie(units.getBuffer());
        uint64_t sum = 0;
        size_t start = 0;
        for (uint32_t end : words.list.ends) {
            UStringTrieResult result = trie.first(words.list.joined[start]);
            for (size_t i = start + 1; i < end; i++) result = trie.next(words.list.joined[i]);
            sum = mixed(sum, USTRINGTRIE_HAS_VALUE(result) ? trie.getValue() : NONE);
            start = end;
        }
        return sum;
    }

    uint64_t longest() const {
        UCharsTrie trie(units.getBuffer());
        const vector<uint16_t> &text = words.units;
        uint64_t sum = 0;
        for (uint32_t at : words.unit_starts) {
            int32_t value = NONE;
            UStringTrieResult result = trie.first(text[at]);
            for (size_t i = at + 1;; i++) {
                if (USTRINGTRIE_HAS_VALUE(result)) value = trie.getValue();
                if (!USTRINGTRIE_HAS_NEXT(result) || i == text.size()) break;
                result = trie.next(text[i]);
            }
            sum = mixed(sum, value);
        }
        return sum;
    }

    size_t stored() const { return 2 * units.length(); }
};

// A hash map has no prefixes: all lengths that a key has are tried, the longest first.
struct Map {
    static constexpr const char *name = "unordered_map";
    static constexpr bool in_place = false;
    const Words &words;
    std::unordered_map<string, int> values;
    std::set<size_t, std::greater<size_t>> lengths;

    explicit Map(const Words &words) : words(words) {
        values.reserve(words.keys.size());
        for (size_t i = 0; i < words.keys.size(); i++) {
            values[words.keys[i]] = words.list.values[i];
            lengths.insert(words.keys[i].size());
        }
    }

    uint64_t keys() const {
        uint64_t sum = 0;
        for (const string &key : words.keys) {
            const auto found = values.find(key);
            sum = mixed(sum, found == values.end() ? NONE : found->second);
        }
        return sum;
    }

    uint64_t longest() const {
        const vector<size_t> all(lengths.begin(), lengths.end());
        string key;
        uint64_t sum = 0;
        for (uint32_t at : words.byte_starts) sum = mixed(sum, longest_at(at, all, key));
        return sum;
    }

    int32_t longest_at(size_t at, const vector<size_t> &all, string &key) const {
        for (size_t length : all) {
            if (length > words.bytes.size() - at) continue;
            key.assign(words.bytes, at, length);
            const auto found = values.find(key);
            if (found != values.end()) return found->second;
        }
        return NONE;
    }

    size_t stored() const { return 0; }
};

// Marisa numbers the keys; the values are in an array of ours.
struct Marisa {
    static constexpr const char *name = "marisa";
    static constexpr bool in_place = false;
    const Words &words;
    marisa::Trie trie;
    vector<int32_t> values;

    explicit Marisa(const Words &words) : words(words), values(words.keys.size()) {
        marisa::Keyset keyset;
        for (const string &key : words.keys) keyset.push_back(PARTS(key));
        trie.build(keyset);
        for (size_t i = 0; i < words.keys.size(); i++)
            values[keyset[i].id()] = words.list.values[i];
    }

    uint64_t keys() const {
        marisa::Agent agent;
        uint64_t sum = 0;
        for (const string &key : words.keys) {
            agent.set_query(PARTS(key));
            sum = mixed(sum, trie.lookup(agent) ? values[agent.key().id()] : NONE);
        }
        return sum;
    }

    uint64_t longest() const {
        marisa::Agent agent;
        uint64_t sum = 0;
        for (uint32_t at : words.byte_starts) {
            int32_t value = NONE;
            agent.set_query(words.bytes.data() + at, words.bytes.size() - at);
            while (trie.common_prefix_search(agent)) value = values[agent.key().id()];
            sum = mixed(sum, value);
        }
        return sum;
    }

    size_t stored() const { return trie.io_size() + 4 * values.size(); }
};

// The alphabet are the bytes of UTF-8, since it may have at most 256 members.
struct Datrie {
    static constexpr const char *name = "datrie";
    static constexpr bool in_place = false;
    const Words &words;
    Trie *trie;

    explicit Datrie(const Words &words) : words(words) {
        AlphaMap *alphabet = alpha_map_new();
        alpha_map_add_range(alphabet, 1, 255);
        trie = trie_new(alphabet);
        alpha_map_free(alphabet);
        for (size_t i = 0; i < words.keys.size(); i++)
            if (!trie_store(trie, words.alpha_keys[i].data(), words.list.values[i]))
                fail(words.list.name + ": datrie can't store a key");
    }
    Datrie(const Datrie &) = delete;
    ~Datrie() { trie_free(trie); }

    uint64_t keys() const {
        uint64_t sum = 0;
        for (const vector<AlphaChar> &key : words.alpha_keys) {
            TrieData value = NONE;
            trie_retrieve(trie, key.data(), &value);
            sum = mixed(sum, value);
        }
        return sum;
    }

    uint64_t longest() const {
        TrieState *state = trie_root(trie);
        uint64_t sum = 0;
        for (uint32_t at : words.byte_starts) {
            int32_t value = NONE;
            trie_state_rewind(state);
            for (size_t i = at;
                 i < words.bytes.size() && trie_state_walk(state, uint8_t(words.bytes[i])); i++)
                if (trie_state_is_terminal(state)) value = trie_state_get_data(state);
            sum = mixed(sum, value);
        }
        trie_state_free(state);
        return sum;
    }

    size_t stored() const { return trie_get_serialized_size(trie); }
};

// Prints the bytes of a structure's stored form, 0 if it has none, and those that it has on the
// heap, 0 if it is read in place.
template <class Library> static void size_of(const Words &words) {
    std::unique_ptr<Library> library;
    const size_t heap = left_on_heap([&] { library.reset(new Library{words}); });
    printf("size\t%s\t%s\t%zu\t%zu\n", words.list.name.c_str(), Library::name, library->stored(),
           Library::in_place ? 0 : heap);
}

template <class... Libraries> static void sizes(const Words &words) {
    size_t bytes = 0;
    for (const string &key : words.keys) bytes += key.size();
    printf("list\t%s\t%zu\t%zu\n", words.list.name.c_str(), words.keys.size(), bytes);
    (size_of<Libraries>(words), ...);
}

template <class... Libraries> static void rows(const Words &words, const Libraries &...libraries) {
    if (wanted("keys"))
        row_of("keys", words.list.name, words.keys.size(),
               {{Libraries::name, [&] { return libraries.keys(); }}...});
    if (wanted("longest"))
        row_of("longest", words.list.name, words.byte_starts.size(),
               {{Libraries::name, [&] { return libraries.longest(); }}...});
}

void compare_words() {
    if (!wanted("keys") && !wanted("longest") && !wanted("sizes")) return;
    for (const List &list : four_lists()) {
        const Words words(list);
        if (wanted("sizes")) sizes<Ours, Icu, Map, Marisa, Datrie>(words);
        if (wanted("keys") || wanted("longest"))
            rows(words, Ours{words}, OursUtf16{words}, Icu{words}, Map{words}, Marisa{words},
                 Datrie{words});
    }
}
