// Tries that are opened and queried once: from ICU's binary form, and from their parts.
#include "icu_trie.hpp"

using std::string;
using std::vector;

enum { TURNS = 64 };

// The trie in binary form, and one extra byte.
static vector<uint8_t> binary_of(const UCPTrie *trie) {
    UErrorCode error = U_ZERO_ERROR;
    const int32_t size = ucptrie_toBinary(trie, nullptr, 0, &error);
    error = U_ZERO_ERROR;
    vector<uint8_t> bytes(size_t(size) + 1);
    ucptrie_toBinary(trie, bytes.data(), size, &error);
    if (U_FAILURE(error)) fail(u_errorName(error));
    return bytes;
}

static uint64_t opened_by_icu(const vector<uint8_t> &bytes, bool is_fast) {
    const UCPTrieType type = is_fast ? UCPTRIE_TYPE_FAST : UCPTRIE_TYPE_SMALL;
    uint64_t sum = 0;
    for (int i = 0; i < TURNS; i++) {
        UErrorCode error = U_ZERO_ERROR;
        int32_t size = 0;
        const IcuTrie trie(ucptrie_openFromBinary(type, UCPTRIE_VALUE_BITS_8, bytes.data(),
                                                  int32_t(bytes.size()), &size, &error));
        if (U_FAILURE(error)) fail(u_errorName(error));
        sum += ucptrie_get(trie.get(), 0x41) + uint64_t(size);
    }
    return sum;
}

void opened() {
    if (!wanted("open") && !wanted("try_new")) return;
    for (const Table &table : tables()) {
        if (table.greatest > 0xFF) continue;
        for (bool is_fast : {true, false}) {
            const IcuTrie trie = icu_trie(table, is_fast, UCPTRIE_VALUE_BITS_8);
            const TrieParts parts = parts_of(trie, 1, is_fast);
            const vector<uint8_t> bytes = binary_of(trie.get());
            const string name = name_of(table, is_fast);
            if (wanted("open"))
                row(
                    "open", name, TURNS, [&] { return ours_open_8(PARTS(bytes), TURNS); }, nullptr,
                    [&] { return opened_by_icu(bytes, is_fast); });
            if (wanted("try_new"))
                row(
                    "try_new", name, TURNS, [&] { return ours_try_new_8(&parts, TURNS); },
                    [&] { return rust_try_new_8(&parts, TURNS); }, nullptr);
        }
    }
}
