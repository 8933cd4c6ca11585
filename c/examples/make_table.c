/* Writes ICU's general categories as a trie in its binary form, for the other examples.
   cc make_table.c -licuuc -o make_table && ./make_table >general_category.bin */
#include <stdio.h>
#include <unicode/uchar.h>
#include <unicode/ucptrie.h>
#include <unicode/umutablecptrie.h>

enum { ERROR_VALUE = 255 }; /* above 0x10FFFF, and of ill-formed text */

int main(void) {
    static uint32_t bytes[1 << 14];
    UErrorCode error = U_ZERO_ERROR;
    const UCPMap *categories = u_getIntPropertyMap(UCHAR_GENERAL_CATEGORY, &error);
    UMutableCPTrie *map = umutablecptrie_open(U_UNASSIGNED, ERROR_VALUE, &error);
    uint32_t value;
    for (UChar32 first = 0, last; (last = ucpmap_getRange(categories, first, UCPMAP_RANGE_NORMAL, 0, NULL,
                                                          NULL, &value)) >= 0; first = last + 1)
        umutablecptrie_setRange(map, first, last, value, &error);
    UCPTrie *trie =
        umutablecptrie_buildImmutable(map, UCPTRIE_TYPE_FAST, UCPTRIE_VALUE_BITS_8, &error);
    int32_t size = ucptrie_toBinary(trie, bytes, sizeof bytes, &error);
    if (U_FAILURE(error) || fwrite(bytes, 1, (size_t)size, stdout) != (size_t)size) {
        fprintf(stderr, "make_table: %s\n", u_errorName(error));
        return 1;
    }
    return 0;
}
