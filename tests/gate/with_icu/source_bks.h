// Opens the table in table.bks by its own function, for values by the functions of bekstaudi.h.
#include "table.bks"
static const bks_trie *bks_table(void) {
    static bks_trie trie;
    if (!trie.width && (table_open(&trie) != BKS_OK || trie.size != sizeof table_table)) return NULL;
    return &trie;
}
