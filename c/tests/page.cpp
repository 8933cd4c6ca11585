/* The example in C++ of c/README.md, with the variables that it needs. c/tests/run writes it to a file. */
#include "bekstaudi.hpp"
#include "bekstaudi_categories.h"
#include "parts.h"
#include <iostream>
#include <map>

int main() {
    CHECK(std::freopen("/dev/null", "w", stdout));
    const std::string text = "Ab ", numbers_of_text = "catA";
    const std::map<std::string, int> numbers = {{"car", 2}, {"cat", 3}};
#include "page_6.cpp"
    CHECK(word == "Ab" && frozen.contains(U'º') && frozen.contains(0x3042) && !frozen.contains(U' '));
    CHECK(bekstaudi::unit_trie(units).entries().size() == 2 && hand.empty());
    CHECK(hands.longest("👋🏿!") == "👋🏿" && hands.longest("👋!") == "👋");
    return 0;
}
