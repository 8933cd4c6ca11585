// Tries that ICU builds from a table, and their parts as the other libraries read them.
#pragma once
#include "bench.hpp"
#include "data.hpp"
#include <memory>
#include <unicode/ucptrie.h>
#include <unicode/umutablecptrie.h>

// The value of numbers above 0x10FFFF.
enum { ERROR_VALUE = 9 };

struct CloseTrie {
    void operator()(UCPTrie *trie) const { ucptrie_close(trie); }
};
typedef std::unique_ptr<UCPTrie, CloseTrie> IcuTrie;

inline IcuTrie icu_trie(const Table &table, bool is_fast, UCPTrieValueWidth width) {
    UErrorCode error = U_ZERO_ERROR;
    UMutableCPTrie *map = umutablecptrie_open(0, ERROR_VALUE, &error);
    for (const Row &row : table.rows)
        umutablecptrie_setRange(map, row.start, row.end, row.value, &error);
    UCPTrie *trie = umutablecptrie_buildImmutable(
        map, is_fast ? UCPTRIE_TYPE_FAST : UCPTRIE_TYPE_SMALL, width, &error);
    umutablecptrie_close(map);
    if (U_FAILURE(error)) fail(u_errorName(error));
    return IcuTrie(trie);
}

inline TrieParts parts_of(const IcuTrie &trie, size_t value_bytes, bool is_fast) {
    return {{reinterpret_cast<const uint8_t *>(trie->index), 2 * size_t(trie->indexLength)},
            {static_cast<const uint8_t *>(trie->data.ptr0), value_bytes * size_t(trie->dataLength)},
            uint32_t(trie->highStart),
            uint32_t(trie->dataNullOffset),
            trie->nullValue,
            trie->index3NullOffset,
            is_fast};
}

// The name of a row: the table's name and the trie's type.
inline std::string name_of(const Table &table, bool is_fast) {
    return table.name + (is_fast ? "-fast" : "-small");
}
