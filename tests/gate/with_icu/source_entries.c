// Prints the entries of the word list in HEAD, as bekstaudi.h finds them.
#include <bekstaudi.h>
#include HEAD
#include <stdio.h>
#include <stdlib.h>
int main(void) {
    size_t room = (size_t)bks_units_count(made_units, sizeof made_units), size;
    bks_word *words = malloc(room * sizeof *words);
    char *texts = malloc(1 << 23);
    int64_t count = bks_units_list(made_units, sizeof made_units, words, room, texts, 1 << 23, &size);
    if (count < 0 || (size_t)count != room || size > 1 << 23) return 1;
    for (size_t i = 0; i < room; i++)
        printf("%.*s;%d\n", (int)words[i].size, texts + words[i].start, words[i].value);
    return 0;
}
