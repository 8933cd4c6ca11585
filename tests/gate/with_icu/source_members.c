// Prints the ranges of the set of which HAS(c) says what is in it.
#include <bekstaudi.h>
#include HEAD
#include <stdio.h>
int main(void) {
    for (uint32_t c = 0, start = 0, was = 0; c <= 0x110000; c++) {
        uint32_t is = c < 0x110000 && HAS(c);
        if (is && !was) start = c;
        if (was && !is) printf(start + 1 == c ? "%04X;1\n" : "%04X..%04X;1\n", start, c - 1);
        was = is;
    }
    return HAS(0x110000);
}
