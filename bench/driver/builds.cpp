// Tries built from the rows of a table, compared with ICU's builder: times, cells, and peak heap.
#include "icu_trie.hpp"
#include <cstdio>

static const struct Width {
    std::string kernel;
    UCPTrieValueWidth icu;
    uint32_t greatest;
    BuildCall *ours;
} widths[] = {{"build_u8", UCPTRIE_VALUE_BITS_8, 0xFF, ours_build_8},
              {"build_u16", UCPTRIE_VALUE_BITS_16, 0xFFFF, ours_build_16},
              {"build_u32", UCPTRIE_VALUE_BITS_32, 0xFFFFFFFF, ours_build_32}};

static void build(const Width &width, const Table &table, bool is_fast) {
    Sizes sizes;
    std::vector<uint32_t> answers(0x110010);
    auto ours = [&](size_t asked) {
        if (!width.ours(is_fast, PARTS(table.rows), ERROR_VALUE, &sizes, answers.data(), asked))
            fail("a build fails");
    };
    const IcuTrie trie = icu_trie(table, is_fast, width.icu);
    each_build([&] {
        ours(answers.size());
        for (uint32_t c = 0; c < answers.size(); c++)
            if (answers[c] != ucptrie_get(trie.get(), c))
                fail("a built trie differs at " + std::to_string(c));
    });
    const Call by_ours = [&] { return ours(0), 0; },
               by_icu = [&] { return icu_trie(table, is_fast, width.icu), 0; };
    row(width.kernel, name_of(table, is_fast), 1, by_ours, nullptr, by_icu);
    printf("cells\t%s\t%s\t%zu\t%d\t%zu\t%d\t%zu\t%zu\n", width.kernel.c_str(),
           name_of(table, is_fast).c_str(), sizes.data, int(trie->dataLength), sizes.index,
           int(trie->indexLength), most_of_heap(by_ours) / 1000, most_of_heap(by_icu) / 1000);
}

void builds() {
    // A map with no rows shows the minimum cost of a build.
    const Table empty = {"empty", {}, 0};
    for (const Width &width : widths) {
        if (!wanted(width.kernel)) continue;
        for (bool is_fast : {true, false}) {
            for (const Table &table : tables())
                if (table.greatest <= width.greatest) build(width, table, is_fast);
            build(width, empty, is_fast);
        }
    }
}
