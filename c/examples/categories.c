/* Prints each character of a text with its general category, and the bytes of each ill-formed part.
   cc categories.c $(pkg-config --cflags --libs bekstaudi) -o categories
   ./categories 'Grüße, 世界!' */
#include <bekstaudi.h>
#include <bekstaudi_categories.h>
#include <stdio.h>

int main(int count, char **words) {
    bks_trie categories;
    if (count != 2) {
        fprintf(stderr, "usage: categories TEXT\n");
        return 2;
    }
    bks_open(&categories, bks_category_table, sizeof bks_category_table);
    const char *text = words[1];
    size_t left = strlen(text);
    while (left > 0) {
        uint8_t category;
        size_t size;  /* with room for one value: the size of the first character */
        bks_trie8_copy_utf8(&categories, text, left, &category, 1, &size);
        if (category == BKS_CATEGORY_ERROR)
            for (size_t i = 0; i < size; i++) printf("%02X ", (unsigned char)text[i]);
        else
            printf("%.*s ", (int)size, text);
        puts(category == BKS_CATEGORY_ERROR ? "ill-formed" : bks_category_names[category]);
        text += size;
        left -= size;
    }
    return 0;
}
