// Compares the functions of a joined table with ICU. The values of ea and WB are compared by name.
#include "joined.h"
#include <stdio.h>
#include <unicode/uchar.h>
static const int widths[] = {[joined_ea_Neutral] = U_EA_NEUTRAL, [joined_ea_Ambiguous] = U_EA_AMBIGUOUS,
    [joined_ea_Halfwidth] = U_EA_HALFWIDTH, [joined_ea_Fullwidth] = U_EA_FULLWIDTH,
    [joined_ea_Narrow] = U_EA_NARROW, [joined_ea_Wide] = U_EA_WIDE};
static int is_wrong(UChar32 c, uint32_t value) {
    return widths[joined_ea(value)] != u_getIntPropertyValue(c, UCHAR_EAST_ASIAN_WIDTH)
        || joined_emoji_presentation(value) != u_hasBinaryProperty(c, UCHAR_EMOJI_PRESENTATION)
        || joined_extended_pictographic(value) != u_hasBinaryProperty(c, UCHAR_EXTENDED_PICTOGRAPHIC)
        || joined_alphabetic(value) != u_hasBinaryProperty(c, UCHAR_ALPHABETIC)
        || joined_xid_start(value) != u_hasBinaryProperty(c, UCHAR_XID_START)
        || joined_ccc(value) != u_getCombiningClass(c)
        || joined_bidi_m(value) != u_isMirrored(c)
        || (joined_wb(value) == joined_wb_ALetter) != (u_getIntPropertyValue(c, UCHAR_WORD_BREAK) == U_WB_ALETTER)
        || (joined_wb(value) == joined_wb_Other) != (u_getIntPropertyValue(c, UCHAR_WORD_BREAK) == U_WB_OTHER);
}
int main(void) {
    int wrong = 0;
    for (UChar32 c = 0; c <= 0x10FFFF; c++)
        if (is_wrong(c, joined_get((uint32_t)c)) && wrong++ < 3) printf("%04X is not ICU's\n", (unsigned)c);
    return wrong != 0;
}
