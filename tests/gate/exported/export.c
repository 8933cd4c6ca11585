/* Writes a table of rows HEX..HEX;N or HEX;N from standard input as a trie in TOML, in the form of
   ICU's icuexportdata: ICU4C builds the trie, and its arrays and header are printed unchanged.
   With a FILE it compares that trie with the one which ICU4C opens from the file's binary form; and
   with a TEXT and VALUES besides, the values along the text, which may be ill-formed UTF-8, with
   those in the file, of four bytes each: those of a fast trie of 32 bits by ICU's own macro.
   Usage: export fast|small 8|16|32 [FILE [TEXT VALUES]] <TABLE */
#include <stdbool.h>
#include <stdio.h>
#include <stdlib.h>
#include <string.h>
#include <unicode/ucptrie.h>
#include <unicode/umutablecptrie.h>

static void fail(const char *what) { fprintf(stderr, "export: %s\n", what); exit(1); }

static UCPTrie *build(bool fast, UCPTrieValueWidth width) {
    static char line[4096];
    UErrorCode error = U_ZERO_ERROR;
    UMutableCPTrie *map = umutablecptrie_open(0, 0, &error);
    while (fgets(line, sizeof line, stdin)) {
        unsigned start, end, value;
        if (sscanf(line, "%x..%x;%u", &start, &end, &value) != 3) {
            if (sscanf(line, "%x;%u", &start, &value) != 2) continue;
            end = start;
        }
        umutablecptrie_setRange(map, (UChar32)start, (UChar32)end, value, &error);
    }
    UCPTrieType type = fast ? UCPTRIE_TYPE_FAST : UCPTRIE_TYPE_SMALL;
    UCPTrie *trie = umutablecptrie_buildImmutable(map, type, width, &error);
    if (U_FAILURE(error)) fail(u_errorName(error));
    return trie;
}

// The text after cell i; sixteen cells make a line.
static const char *after(int i) { return i % 16 == 15 ? ",\n" : ","; }

static unsigned cell(const UCPTrie *trie, int bits, int i) {
    return bits == 8 ? trie->data.ptr8[i] : bits == 16 ? trie->data.ptr16[i] : trie->data.ptr32[i];
}

// Checks that the file has a trie in ICU's binary form and nothing else, with the same values as this
// one, and the bytes that ICU writes if its values have the same width.
static void compare(const UCPTrie *trie, const char *path) {
    static uint32_t bytes[1 << 18], own[1 << 18];
    FILE *file = fopen(path, "rb");
    int32_t length = file ? (int32_t)fread(bytes, 1, sizeof bytes, file) : 0, taken = 0;
    UErrorCode error = U_ZERO_ERROR;
    const UCPTrie *read = ucptrie_openFromBinary(UCPTRIE_TYPE_ANY, UCPTRIE_VALUE_BITS_ANY, bytes,
                                                 length, &taken, &error);
    if (U_FAILURE(error)) fail(u_errorName(error));
    if (taken != length) fail("the trie takes another number of bytes");
    for (UChar32 c = 0; c <= 0x110000; c++)
        if (ucptrie_get(read, c) != ucptrie_get(trie, c)) fail("another answer");
    if (ucptrie_getValueWidth(read) != ucptrie_getValueWidth(trie)) return;
    if (ucptrie_toBinary(trie, own, sizeof own, &error) != length || memcmp(bytes, own, length))
        fail("other bytes than ICU's");
}

// The values along the text are those in the file: as many, each the same.
static void compare_values(const UCPTrie *trie, const char *text_path, const char *values_path) {
    static uint8_t text[1 << 23];
    FILE *texts = fopen(text_path, "rb"), *values = fopen(values_path, "rb");
    if (!texts || !values) fail("no text, or no values");
    const uint8_t *at = text, *end = text + fread(text, 1, sizeof text, texts);
    long parts = 0, refused = 0;
    for (; at < end; parts++) {
        uint32_t wanted, found;
        UCPTRIE_FAST_U8_NEXT(trie, UCPTRIE_32, at, end, wanted);
        if (fread(&found, sizeof found, 1, values) != 1) fail("fewer values than ICU's");
        if (found != wanted) fail("another value than ICU's");
        refused += wanted == ucptrie_get(trie, 0x110000);
    }
    if (fgetc(values) != EOF) fail("more values than ICU's");
    printf("%ld values along damaged UTF-8 are ICU's, %ld of them of ill-formed parts\n", parts, refused);
}

int main(int count, char **words) {
    if (count < 3 || count > 6 || count == 5) fail("usage: export fast|small 8|16|32 [FILE [TEXT VALUES]]");
    int bits = atoi(words[2]);
    UCPTrieValueWidth width = bits == 8    ? UCPTRIE_VALUE_BITS_8
                              : bits == 16 ? UCPTRIE_VALUE_BITS_16
                                           : UCPTRIE_VALUE_BITS_32;
    UCPTrie *trie = build(!strcmp(words[1], "fast"), width);
    if (count >= 4) compare(trie, words[3]);
    if (count == 6) compare_values(trie, words[4], words[5]);
    if (count >= 4) return 0;
    printf("[[enum_property]]\nlong_name = \"Table\"\nshort_name = \"table\"\n\n"
           "[enum_property.code_point_trie]\nindex = [\n");
    for (int i = 0; i < trie->indexLength; i++) printf("%u%s", trie->index[i], after(i));
    printf("\n]\ndata_%d = [\n", bits);
    for (int i = 0; i < trie->dataLength; i++) printf("%u%s", cell(trie, bits, i), after(i));
    printf("\n]\nindexLength = %d\ndataLength = %d\nhighStart = 0x%x\n"
           "shifted12HighStart = 0x%x\ntype = %d\nvalueWidth = %d\n"
           "index3NullOffset = 0x%x\ndataNullOffset = 0x%x\nnullValue = 0x%x\n",
           (int)trie->indexLength, (int)trie->dataLength, (unsigned)trie->highStart,
           (unsigned)trie->shifted12HighStart, trie->type, trie->valueWidth,
           (unsigned)trie->index3NullOffset, (unsigned)trie->dataNullOffset,
           (unsigned)trie->nullValue);
    ucptrie_close(trie);
    return 0;
}
