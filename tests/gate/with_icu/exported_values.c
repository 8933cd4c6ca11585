// Compares what ucptrie makes of a file of icuexportdata with ICU, at all code points: exported_values TABLE FILE
// [SCRIPTS], or exported_values names PROPERTY NAMES. It prints the first differences.
#include <stdio.h>
#include <stdlib.h>
#include <string.h>
#include <unicode/uchar.h>
#include <unicode/ucptrie.h>
#include <unicode/unorm2.h>
#include <unicode/uscript.h>
static char bytes[1 << 22];
static int scripts[4096][64], counts[4096];

// Reads the lines of script codes, one for each list.
static void read_scripts(const char *path) {
    char line[1000];
    FILE *file = fopen(path, "r");
    for (int k = 0; file && fgets(line, sizeof line, file); k++)
        for (char *word = strtok(line, " \n"); word; word = strtok(NULL, " \n")) scripts[k][counts[k]++] = atoi(word);
}

// Whether c has these script extensions in ICU: a script, or the list at the low ten bits, after the
// script itself if that is neither Common nor Inherited.
static int has_scripts(UChar32 c, uint32_t value) {
    UErrorCode error = U_ZERO_ERROR;
    UScriptCode icus[64];
    int kind = value >> 10, low = value & 1023, count = uscript_getScriptExtensions(c, icus, 64, &error);
    int script = kind == 1 ? USCRIPT_COMMON : kind == 2 ? USCRIPT_INHERITED : kind == 3 ? scripts[low][0] : low;
    if (script != (int)uscript_getScript(c, &error)) return 0;
    if (kind == 0) return count == 1 && icus[0] == low;
    if (count != counts[low] - (kind == 3)) return 0;
    for (int i = 0; i < count; i++)
        if ((int)icus[i] != scripts[low][i + (kind == 3)]) return 0;
    return 1;
}

// Whether c has a decomposition of this form, apart from Hangul syllables, which have no entries.
static int decomposes(const UNormalizer2 *form, UChar32 c) {
    UErrorCode error = U_ZERO_ERROR;
    UChar text[40];
    return (c < 0xAC00 || c > 0xD7A3) && unorm2_getRawDecomposition(form, c, text, 40, &error) >= 0;
}

// Whether c has a value that is not 0 if it has a canonical decomposition; for nfkd.toml, which has
// only what differs from nfd.toml, if only its compatibility decomposition exists.
static int has_entry(const char *file, UChar32 c, uint32_t value) {
    UErrorCode error = U_ZERO_ERROR;
    int is_canonical = decomposes(unorm2_getNFCInstance(&error), c);
    if (!strcmp(file, "nfd")) return value != 0 || !is_canonical;
    return value != 0 || is_canonical || !decomposes(unorm2_getNFKCInstance(&error), c);
}

static int agrees(const char *file, UProperty property, UChar32 c, uint32_t value) {
    if (!strcmp(file, "scx")) return has_scripts(c, value);
    if (!strcmp(file, "ucase"))
        return ((value & 3) == 1) == u_isULowercase(c) && ((value & 3) == 2) == u_isUUppercase(c);
    if (!strcmp(file, "nfd") || !strcmp(file, "nfkd")) return has_entry(file, c, value);
    if (property == UCHAR_INVALID_CODE) return 1;
    return (int32_t)value == u_getIntPropertyValue(c, property);
}

// Prints the values of the property FILE, in which a table of ICU's form differs from ICU; with NAMES
// whether each line `NUMBER NAME` there is a name that ICU has for the number.
int main(int count, char **words) {
    UErrorCode error = U_ZERO_ERROR;
    UProperty property = u_getPropertyEnum(words[2]);
    int wrong = 0, value;
    char name[200];
    if (!strcmp(words[1], "names")) {
        FILE *file = fopen(words[3], "r");
        while (fscanf(file, "%d %199s", &value, name) == 2)
            if (u_getPropertyValueEnum(property, name) != value && wrong++ < 3)
                printf("%d is named %s, and not so in ICU\n", value, name);
        return wrong != 0;
    }
    FILE *file = fopen(words[1], "rb");
    int32_t length = (int32_t)fread(bytes, 1, sizeof bytes, file);
    UCPTrie *trie = ucptrie_openFromBinary(UCPTRIE_TYPE_ANY, UCPTRIE_VALUE_BITS_ANY, bytes, length, NULL, &error);
    if (U_FAILURE(error)) return printf("no trie\n"), 1;
    if (count > 3) read_scripts(words[3]);
    for (UChar32 c = 0; c <= 0x10FFFF; c++) {
        uint32_t value = ucptrie_get(trie, c);
        if (!agrees(words[2], property, c, value) && wrong++ < 3) printf("%04X has %u, which is not ICU's\n", c, value);
    }
    return wrong != 0;
}
