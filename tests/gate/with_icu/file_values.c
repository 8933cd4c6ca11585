// Compares a table that ucptrie makes of a file of Unicode with a property of ICU, at all code points:
// file_values TABLE PROPERTY [NAMES], in which `=` before the property says that it is no number of ICU's, and
// NAMES has the lines NUMBER;NAME of the values. It prints the first differences. With one argument, the first
// line of a file of Unicode, it returns 0 if ICU has the same version.
#include <math.h>
#include <stdio.h>
#include <stdlib.h>
#include <string.h>
#include <unicode/uchar.h>
#include <unicode/ucptrie.h>
#include <unicode/uscript.h>
static char bytes[1 << 22], names[1 << 16][160];

// Whether the code points of a mapping agree; 0 stands for a code point that is mapped to itself.
static int maps(UChar32 c, UChar32 ours, UChar32 icus) { return ours == (icus == c ? 0 : icus); }

// Whether c has this age in ICU.
static int has_age(UChar32 c, const char *name) {
    UVersionInfo age;
    char text[16];
    u_charAge(c, age);
    sprintf(text, "%d.%d", age[0], age[1]);
    return !strcmp(name, age[0] ? text : "NA");
}

// Whether c has this numeric value in ICU. The files round it.
static int has_number(UChar32 c, const char *name) {
    double icus = u_getNumericValue(c);
    return *name ? fabs(atof(name) - icus) <= 1e-6 * fabs(icus) : icus == U_NO_NUMERIC_VALUE;
}

// Whether c has these script extensions in ICU. Without a name it has those of its script alone.
static int has_scripts(UChar32 c, const char *name) {
    UErrorCode error = U_ZERO_ERROR;
    UScriptCode icus[64];
    char text[160];
    int count = uscript_getScriptExtensions(c, icus, 64, &error), found = 0;
    if (!*name) return count == 1;
    strcpy(text, name);
    for (char *word = strtok(text, " "); word; word = strtok(NULL, " "), found++)
        if (!uscript_hasScript(c, u_getPropertyValueEnum(UCHAR_SCRIPT, word))) return 0;
    return found == count;
}

// Whether ICU has the value that a code point without a line has in ArabicShaping.txt.
static int is_unlisted(UProperty property, UChar32 c, int32_t icus) {
    if (property == UCHAR_JOINING_GROUP) return icus == U_JG_NO_JOINING_GROUP;
    int is_mark = (U_GET_GC_MASK(c) & (U_GC_MN_MASK | U_GC_ME_MASK | U_GC_CF_MASK)) != 0;
    return icus == (is_mark ? U_JT_TRANSPARENT : U_JT_NON_JOINING);
}

// Whether a value agrees with ICU's of a property that is no number of ICU.
static int agrees(const char *property, UChar32 c, UChar32 value) {
    if (!strcmp(property, "age")) return has_age(c, names[value]);
    if (!strcmp(property, "nv")) return has_number(c, names[value]);
    if (!strcmp(property, "scx")) return has_scripts(c, names[value]);
    if (!strcmp(property, "bmg")) return maps(c, value, u_charMirror(c));
    if (!strcmp(property, "bpb")) return maps(c, value, u_getBidiPairedBracket(c));
    if (!strcmp(property, "suc")) return maps(c, value, u_toupper(c));
    if (!strcmp(property, "slc")) return maps(c, value, u_tolower(c));
    if (!strcmp(property, "stc")) return maps(c, value ? value : u_toupper(c), u_totitle(c)) || u_totitle(c) == c;
    if (!strcmp(property, "scf")) return maps(c, value, u_foldCase(c, U_FOLD_CASE_DEFAULT));
    UProperty icus = u_getPropertyEnum(property);
    int32_t found = u_getIntPropertyValue(c, icus);
    return *names[value] ? u_getPropertyValueEnum(icus, names[value]) == found : is_unlisted(icus, c, found);
}

int main(int count, char **words) {
    UErrorCode error = U_ZERO_ERROR;
    char line[300];
    if (count == 2) return strstr(words[1], "-" U_UNICODE_VERSION ".") == NULL;
    FILE *file = fopen(words[1], "rb");
    int32_t length = (int32_t)fread(bytes, 1, sizeof bytes, file), wrong = 0;
    UCPTrie *trie = ucptrie_openFromBinary(UCPTRIE_TYPE_ANY, UCPTRIE_VALUE_BITS_ANY, bytes, length, NULL, &error);
    int is_other = *words[2] == '=';
    UProperty property = is_other ? UCHAR_AGE : u_getPropertyEnum(words[2]);
    if (U_FAILURE(error) || property == UCHAR_INVALID_CODE) return printf("no trie or no property\n"), 1;
    if (count > 3) {
        file = fopen(words[3], "r");
        while (fgets(line, sizeof line, file)) {
            line[strcspn(line, "\n")] = 0;
            strcpy(names[atoi(line)], strchr(line, ';') + 1);
        }
    }
    for (UChar32 c = 0; c <= 0x10FFFF; c++) {
        uint32_t value = ucptrie_get(trie, c);
        if (is_other) {
            if (!agrees(words[2] + 1, c, value) && wrong++ < 3) printf("%04X has %u, which is not ICU's\n", c, value);
            continue;
        }
        int32_t icus = u_getIntPropertyValue(c, property), ours = (int32_t)value;
        if (count > 3) ours = u_getPropertyValueEnum(property, names[value]);
        if (ours != icus && wrong++ < 3) printf("%04X has %u, and %d in ICU\n", c, value, icus);
    }
    return wrong != 0;
}
