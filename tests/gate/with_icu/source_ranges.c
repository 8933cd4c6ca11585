// Prints the ranges of equal values of VALUE(c), and fails unless that is 255 above 10FFFF.
#include HEAD
#include <stdio.h>
int main(void) {
    for (uint32_t start = 0, c = 1; c <= 0x110000; c++) {
        if (c < 0x110000 && VALUE(c) == VALUE(start)) continue;
        if (start < c - 1) printf("%04X..", start);
        printf("%04X;%u\n", c - 1, (uint32_t)VALUE(start));
        start = c;
    }
    return VALUE(0x110000) != 255;
}
