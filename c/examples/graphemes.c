/* Prints the grapheme clusters of a text, what users take for characters, with | between them (UAX #29).
   U=/usr/share/unicode
   (cat $U/auxiliary/GraphemeBreakProperty.txt; grep Extended_Pictographic $U/emoji/emoji-data.txt) |
       ./ucptrie build - --width 8 --as bks --name breaks -o breaks.h
   cc graphemes.c $(pkg-config --cflags --libs bekstaudi) -o graphemes
   ./graphemes 'noël' */
#include "breaks.h"
#include <stdio.h>

/* What the rules need of the characters so far: the class of the last one; whether they end with a picture
   and Extend* (GB11), or with that and ZWJ; and with an odd number of regional indicators (GB12, GB13). */
struct before {
    uint8_t last;
    bool picture, joined, odd;
};

static bool is_control(uint8_t class) {
    return class == breaks_CR || class == breaks_LF || class == breaks_Control;
}

/* Returns whether there is a boundary before a character of this class. */
static bool is_boundary(const struct before *before, uint8_t next) {
    uint8_t last = before->last;
    if (last == breaks_CR && next == breaks_LF) return false;                               /* GB3 */
    if (is_control(last) || is_control(next)) return true;                                  /* GB4, GB5 */
    if (next == breaks_Extend || next == breaks_ZWJ || next == breaks_SpacingMark) return false; /* GB9 */
    switch (last) {
    case breaks_Prepend: return false;                                                      /* GB9b */
    case breaks_L:                                                                          /* GB6 */
        return next != breaks_L && next != breaks_V && next != breaks_LV && next != breaks_LVT;
    case breaks_LV: case breaks_V: return next != breaks_V && next != breaks_T;             /* GB7 */
    case breaks_LVT: case breaks_T: return next != breaks_T;                                /* GB8 */
    case breaks_ZWJ: return !(before->joined && next == breaks_Extended_Pictographic);      /* GB11 */
    case breaks_Regional_Indicator: return !(before->odd && next == breaks_Regional_Indicator);
    default: return true;                                                                   /* GB999 */
    }
}

static void add(struct before *before, uint8_t next) {
    before->joined = before->picture && next == breaks_ZWJ;
    before->picture = next == breaks_Extended_Pictographic || (before->picture && next == breaks_Extend);
    before->odd = next == breaks_Regional_Indicator && !before->odd;
    before->last = next;
}

/* Returns the size in bytes of the first cluster of a text, which is not empty. An ill-formed part has the
   error value, and is a cluster as any other character. */
static size_t first_cluster(const bks_trie *classes, const char *text, size_t size) {
    struct before before = {breaks_Other, false, false, false};
    size_t end = 0, after = 0;
    while (end < size) {
        uint32_t c;
        uint8_t class = bks_next8_utf8(classes, text, size, &after, &c);
        if (end > 0 && is_boundary(&before, class)) break;
        add(&before, class);
        end = after;
    }
    return end;
}

int main(int count, char **arguments) {
    bks_trie classes;
    if (count != 2 || breaks_open(&classes) != BKS_OK) {
        fprintf(stderr, "usage: graphemes TEXT\n");
        return 2;
    }
    const char *text = arguments[1];
    for (size_t left = strlen(text), size; left > 0; text += size, left -= size) {
        size = first_cluster(&classes, text, left);
        fwrite(text, 1, size, stdout);
        putchar(size < left ? '|' : '\n');
    }
    return 0;
}
