/* Writes the trie that ICU4C builds of a table of rows HEX..HEX;N or HEX;N, in its binary form.
   Usage: icu_tries fast|small 8|16|32 ERROR <TABLE >TRIE */
#include <stdio.h>
#include <stdlib.h>
#include <string.h>
#include <unicode/ucptrie.h>
#include <unicode/umutablecptrie.h>

int main(int count, char **words) {
    static uint32_t bytes[1 << 18];
    char line[4096];
    UErrorCode error = U_ZERO_ERROR;
    if (count != 4) return 2;
    int bits = atoi(words[2]);
    UMutableCPTrie *map = umutablecptrie_open(0, (uint32_t)strtoul(words[3], NULL, 0), &error);
    while (fgets(line, sizeof line, stdin)) {
        unsigned first, last, value;
        if (sscanf(line, "%x..%x;%u", &first, &last, &value) != 3) {
            if (sscanf(line, "%x;%u", &first, &value) != 2) continue;
            last = first;
        }
        umutablecptrie_setRange(map, (UChar32)first, (UChar32)last, value, &error);
    }
    UCPTrie *trie = umutablecptrie_buildImmutable(
        map, strcmp(words[1], "fast") == 0 ? UCPTRIE_TYPE_FAST : UCPTRIE_TYPE_SMALL,
        bits == 8    ? UCPTRIE_VALUE_BITS_8
        : bits == 16 ? UCPTRIE_VALUE_BITS_16
                     : UCPTRIE_VALUE_BITS_32,
        &error);
    int32_t size = ucptrie_toBinary(trie, bytes, sizeof bytes, &error);
    if (U_FAILURE(error) || fwrite(bytes, 1, (size_t)size, stdout) != (size_t)size) return 1;
    ucptrie_close(trie);
    umutablecptrie_close(map);
    return 0;
}
