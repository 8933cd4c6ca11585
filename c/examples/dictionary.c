/* Cuts a text without spaces into words: at each position, the longest word of a list.
   ./ucptrie words LIST --as icu -o words.icu     (LIST has lines WORD;NUMBER)
   cc dictionary.c $(pkg-config --cflags --libs bekstaudi) -o dictionary
   echo thecategories | ./dictionary words.icu */
#include <bekstaudi.h>
#include <stdio.h>
#include <stdlib.h>

/* Reads a whole file. Returns its bytes, or NULL. */
static char *read_all(FILE *file, size_t *size) {
    size_t room = 1 << 16;
    char *bytes = malloc(room);
    *size = 0;
    while (bytes) {
        *size += fread(bytes + *size, 1, room - *size, file);
        if (*size < room) return bytes;
        char *larger = realloc(bytes, room *= 2);
        if (!larger) free(bytes);
        bytes = larger;
    }
    return NULL;
}

/* Prints the words of a text and their numbers. A character with which no word starts, and a byte that
   is no character, is a piece of its own. */
static void print_pieces(const void *words, size_t words_size, const char *text, size_t size) {
    while (size > 0) {
        int32_t number = 0;
        int64_t length = bks_units_longest_utf8(words, words_size, text, size, &number);
        bool found = length > 0;
        if (!found) {
            length = 1;
            while ((size_t)length < size && (text[length] & 0xC0) == 0x80) length++;
        }
        printf("%.*s", (int)length, text);
        if (found) printf(" %d", (int)number);
        putchar('\n');
        text += length;
        size -= (size_t)length;
    }
}

int main(int count, char **arguments) {
    size_t words_size, size;
    FILE *file = count == 2 ? fopen(arguments[1], "rb") : NULL;
    char *words = file ? read_all(file, &words_size) : NULL;
    char *text = words ? read_all(stdin, &size) : NULL;
    if (!text) {
        fprintf(stderr, "usage: dictionary WORDS.icu < TEXT\n");
        return 2;
    }
    print_pieces(words, words_size, text, size);
    free(text);
    free(words);
    fclose(file);
    return 0;
}
