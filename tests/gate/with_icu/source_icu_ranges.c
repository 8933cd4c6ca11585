// Prints the ranges that ICU finds in the trie OPENED. If HEAD is not defined, OPENED is the
// trie in ICU's binary form in the file table.icu.
#include <stdio.h>
#include <unicode/ucptrie.h>
#ifdef HEAD
#include HEAD
#else
#define OPENED opened()
static const UCPTrie *opened(void) {
    static uint32_t bytes[1 << 18];
    FILE *file = fopen("table.icu", "rb");
    int32_t length = file ? (int32_t)fread(bytes, 1, sizeof bytes, file) : 0, taken = 0;
    UErrorCode error = U_ZERO_ERROR;
    const UCPTrie *trie = ucptrie_openFromBinary(UCPTRIE_TYPE_ANY, UCPTRIE_VALUE_BITS_ANY, bytes,
                                                 length, &taken, &error);
    return U_FAILURE(error) || taken != length ? NULL : trie;
}
#endif
int main(void) {
    const UCPTrie *trie = OPENED;
    uint32_t value;
    for (UChar32 c = 0, end; (end = ucptrie_getRange(trie, c, UCPMAP_RANGE_NORMAL, 0, NULL, NULL,
                                                     &value)) >= 0; c = end + 1) {
        if (c < end) printf("%04X..", c);
        printf("%04X;%u\n", end, value);
    }
    return ucptrie_get(trie, 0x110000) != 255;
}
