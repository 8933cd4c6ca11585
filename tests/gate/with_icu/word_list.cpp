// Prints the entries that ICU finds in the units of a file, which have to be those of words.c.
#include <cstdio>
#include <string>
#include <unicode/ucharstrie.h>
#include <unicode/unistr.h>
#include "words.c"
static char16_t units[1 << 23];
int main(int, char **paths) {
    FILE *file = fopen(paths[1], "rb");
    size_t count = fread(units, 2, sizeof units / 2, file);
    if (count * 2 != sizeof words_units || memcmp(units, words_units, sizeof words_units)) return 2;
    UErrorCode error = U_ZERO_ERROR;
    icu::UCharsTrie trie(words_units);
    for (icu::UCharsTrie::Iterator entries(units, 0, error); entries.next(error);) {
        std::string key;
        icu::UnicodeString text = entries.getString();
        trie.reset();
        UStringTrieResult found = USTRINGTRIE_NO_VALUE;
        for (int32_t i = 0; i < text.length(); i++) found = trie.next(text[i]);
        if (!USTRINGTRIE_HAS_VALUE(found) || trie.getValue() != entries.getValue()) return 3;
        printf("%s;%d\n", text.toUTF8String(key).c_str(), entries.getValue());
    }
    return U_FAILURE(error);
}
