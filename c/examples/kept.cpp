// Prints what a text has of letters, digits and spaces, by a table of general categories that ICU or
// ucptrie wrote (make_table.c). Ill-formed sequences are left out.
// c++ -std=c++17 kept.cpp $(pkg-config --cflags --libs bekstaudi) -o kept
// ./kept general_category.bin 'A+ß, 7!'
// ./kept general_category.bin <FILE
#include <bekstaudi.hpp>
#include <bekstaudi_categories.h>
#include <fstream>
#include <iostream>
#include <iterator>
#include <string>

static std::string read_all(std::istream &in) { return {std::istreambuf_iterator<char>(in), {}}; }

// The pieces of the text that are held.
static void print_kept(const bekstaudi::frozen_set &kept, std::string_view text) {
    while (!text.empty()) {
        try {
            text.remove_prefix(kept.span(text, false).size());
            std::string_view piece = kept.span(text);
            text.remove_prefix(piece.size());
            std::cout << piece;
        } catch (const bekstaudi::invalid_utf8 &) {
            text.remove_prefix(1);  // the text does not start with a character
        }
    }
}

int main(int count, char **words) {
    std::ifstream file(count == 2 || count == 3 ? words[1] : "", std::ios::binary);
    if (!file) {
        std::cerr << "usage: kept TABLE [TEXT]\n";
        return 2;
    }
    const std::string bytes = read_all(file);
    try {
        bekstaudi::trie8 categories(bytes);
        bekstaudi::code_point_set kept{0x0A, 0x0B};  // ends of lines
        for (std::uint8_t category : {BKS_GC_LU, BKS_GC_LL, BKS_GC_LT, BKS_GC_LM, BKS_GC_LO,
                                      BKS_GC_ND, BKS_GC_ZS}) {
            kept = kept | categories.set_of(category);
        }
        std::string text = count == 3 ? words[2] + std::string("\n") : read_all(std::cin);
        print_kept(bekstaudi::frozen_set(kept), text);
    } catch (const std::exception &fault) {
        std::cerr << "kept: " << fault.what() << '\n';
        return 1;
    }
}
