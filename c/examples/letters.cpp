// Prints the words of a text: what is made of letters. An ill-formed sequence ends a word.
// c++ -std=c++17 letters.cpp $(pkg-config --cflags --libs bekstaudi) -o letters
// ./letters 'Grüße, 世界!'
#include <bekstaudi.hpp>
#include <bekstaudi_categories.h>
#include <iostream>

static void print_words(const bekstaudi::frozen_set &letters, std::string_view text) {
    while (!text.empty()) {
        try {
            text.remove_prefix(letters.span(text, false).size());
            std::string_view word = letters.span(text);
            text.remove_prefix(word.size());
            if (!word.empty()) std::cout << word << '\n';
        } catch (const bekstaudi::invalid_utf8 &) {
            text.remove_prefix(1);  // the text does not start with a character
        }
    }
}

int main(int count, char **words) {
    if (count != 2) {
        std::cerr << "usage: letters TEXT\n";
        return 2;
    }
    try {
        bekstaudi::trie8 categories(bks_category_table);
        bekstaudi::code_point_set set;
        for (int letter = BKS_GC_LU; letter <= BKS_GC_LO; letter++) {
            set = set | categories.set_of(static_cast<std::uint8_t>(letter));
        }
        print_words(bekstaudi::frozen_set(set), words[1]);
    } catch (const std::exception &fault) {
        std::cerr << "letters: " << fault.what() << '\n';
        return 1;
    }
}
