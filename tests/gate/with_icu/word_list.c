// Prints the units of the word list in words.c.
#include <stdio.h>
#include "words.c"
int main(void) { return fwrite(words_units, 1, sizeof words_units, stdout) != sizeof words_units; }
