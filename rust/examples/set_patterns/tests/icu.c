/* Prints the set of each pattern in standard input as ICU4C reads it: its ranges and strings, as hexadecimal
   numbers, or `fault`. */
#include <stdio.h>
#include <string.h>
#include <unicode/uset.h>
#include <unicode/ustring.h>

static void print_items(const USet *set) {
    UChar text[1000];
    for (int32_t i = 0; i < uset_getItemCount(set); i++) {
        UErrorCode error = U_ZERO_ERROR;
        UChar32 first, last, c;
        int32_t size = uset_getItem(set, i, &first, &last, text, 1000, &error);
        if (i < uset_getRangeCount(set)) {
            printf("%X-%X ", (unsigned)first, (unsigned)last);
            continue;
        }
        printf("{ ");
        for (int32_t next = 0; next < size;) {
            U16_NEXT(text, next, size, c);
            printf("%X ", (unsigned)c);
        }
        printf("} ");
    }
    putchar('\n');
}

int main(void) {
    static char line[10000];
    static UChar pattern[10000];
    while (fgets(line, sizeof line, stdin)) {
        UErrorCode error = U_ZERO_ERROR;
        int32_t size;
        u_strFromUTF8(pattern, 10000, &size, line, (int32_t)strcspn(line, "\n"), &error);
        USet *set = uset_openPattern(pattern, size, &error);
        if (U_SUCCESS(error)) print_items(set);
        else puts("fault");
        uset_close(set);
    }
    return 0;
}
