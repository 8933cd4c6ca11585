/* Compares the table of general categories with ICU's u_charType at all code points, if ICU has the
 * same Unicode version, and the names with ICU's. No code point has the error value. */
#include <bekstaudi.h>
#include <bekstaudi_categories.h>
#include <stdio.h>
#include <unicode/uchar.h>

static const char *const icus[] = {
    [U_UNASSIGNED] = "Cn", [U_UPPERCASE_LETTER] = "Lu", [U_LOWERCASE_LETTER] = "Ll", [U_TITLECASE_LETTER] = "Lt",
    [U_MODIFIER_LETTER] = "Lm", [U_OTHER_LETTER] = "Lo", [U_NON_SPACING_MARK] = "Mn", [U_ENCLOSING_MARK] = "Me",
    [U_COMBINING_SPACING_MARK] = "Mc", [U_DECIMAL_DIGIT_NUMBER] = "Nd", [U_LETTER_NUMBER] = "Nl",
    [U_OTHER_NUMBER] = "No", [U_SPACE_SEPARATOR] = "Zs", [U_LINE_SEPARATOR] = "Zl", [U_PARAGRAPH_SEPARATOR] = "Zp",
    [U_CONTROL_CHAR] = "Cc", [U_FORMAT_CHAR] = "Cf", [U_PRIVATE_USE_CHAR] = "Co", [U_SURROGATE] = "Cs",
    [U_DASH_PUNCTUATION] = "Pd", [U_START_PUNCTUATION] = "Ps", [U_END_PUNCTUATION] = "Pe",
    [U_CONNECTOR_PUNCTUATION] = "Pc", [U_OTHER_PUNCTUATION] = "Po", [U_MATH_SYMBOL] = "Sm",
    [U_CURRENCY_SYMBOL] = "Sc", [U_MODIFIER_SYMBOL] = "Sk", [U_OTHER_SYMBOL] = "So",
    [U_INITIAL_PUNCTUATION] = "Pi", [U_FINAL_PUNCTUATION] = "Pf"};

int main(void) {
    bks_trie categories;
    if (bks_open(&categories, bks_category_table, sizeof bks_category_table) != BKS_OK) return 1;
    for (int value = 0; value < U_CHAR_CATEGORY_COUNT; value++) {
        if (strcmp(icus[value], bks_category_names[value]) != 0) {
            printf("value %d is %s, of ICU %s\n", value, bks_category_names[value], icus[value]);
            return 1;
        }
    }
    uint8_t values[3];
    size_t taken;
    if (bks_trie8_copy_utf8(&categories, "A\xFFz", 3, values, 3, &taken) != 3 || values[0] != U_UPPERCASE_LETTER ||
        values[1] != BKS_CATEGORY_ERROR || bks_get8(&categories, 0x110000) != BKS_CATEGORY_ERROR) {
        printf("the error value is not %d\n", BKS_CATEGORY_ERROR);
        return 1;
    }
    UVersionInfo version;
    char text[U_MAX_VERSION_STRING_LENGTH];
    u_getUnicodeVersion(version);
    u_versionToString(version, text);
    if (strncmp(text, BKS_CATEGORY_VERSION, strlen(text)) != 0) {
        printf("not compared: ICU has Unicode %s, the table %s\n", text, BKS_CATEGORY_VERSION);
        return 0;
    }
    for (uint32_t c = 0; c < 0x110000; c++) {
        if (bks_get8(&categories, c) != (uint8_t)u_charType((UChar32)c)) {
            printf("U+%04X: %d, of ICU %d\n", (unsigned)c, bks_get8(&categories, c), u_charType((UChar32)c));
            return 1;
        }
    }
    printf("all code points as ICU's, Unicode %s\n", text);
    return 0;
}
