// Compares the C sources and the serialized sets that rows.h lists with ICU, and prints ICU's ranges.
#include <stdio.h>
#include <string.h>
#include <unicode/uchar.h>
#include <unicode/uset.h>
#include "bekstaudi.h"
#include "sets.h"
#define SET(name, property) \
    {#name, property, #name ".icu", name##_contains, name##_frozen_contains, name##_frozen_words},
static const struct {
    const char *name, *property, *serialized;
    bool (*contains)(uint32_t), (*frozen)(uint32_t);
    const uint64_t *words;
} SETS[] = {
#include "rows.h"
};
static uint16_t units[1 << 16];
static bool stored[0x110001];
int main(void) {
    for (size_t i = 0; i < sizeof SETS / sizeof *SETS; i++) {
        USerializedSet set;
        UProperty property = u_getPropertyEnum(SETS[i].property);
        FILE *file = fopen(SETS[i].serialized, "rb");
        int32_t count = (int32_t)fread(units, 2, sizeof units / 2, file), wrong = 0;
        fclose(file);
        if (property == UCHAR_INVALID_CODE || !uset_getSerializedSet(&set, units, count)) {
            return fprintf(stderr, "%s: no property or no set\n", SETS[i].name), 1;
        }
        memset(stored, 0, sizeof stored);
        for (int32_t k = 0; k < uset_getSerializedRangeCount(&set); k++) {
            UChar32 start, end;
            uset_getSerializedRange(&set, k, &start, &end);
            memset(stored + start, 1, (size_t)(end - start + 1));
        }
        printf("%s\n", SETS[i].name);
        for (UChar32 c = 0, start = -1; c <= 0x110000; c++) {
            bool held = c < 0x110000 && u_hasBinaryProperty(c, property);
            if (held && start < 0) start = c;
            if (!held && start >= 0) printf("%X..%X\n", start, c - 1), start = -1;
            wrong += SETS[i].contains(c) != held;
            wrong += SETS[i].frozen(c) != held;
            wrong += bks_frozen_has(SETS[i].words, c) != held;
            wrong += stored[c] != held;
        }
        if (wrong) fprintf(stderr, "%s: %d answers differ from ICU's\n", SETS[i].name, wrong);
    }
    return 0;
}
