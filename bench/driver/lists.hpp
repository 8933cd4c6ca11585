// Generated lists of keys, for unit tries.
#pragma once
#include <cstdint>
#include <string>
#include <unicode/unistr.h>
#include <vector>

// Random keys without duplicates, and their values.
struct List {
    std::string name;
    std::vector<icu::UnicodeString> keys;
    std::vector<int32_t> values;
    // The keys one after another, and the position after each.
    std::vector<uint16_t> joined;
    std::vector<uint32_t> ends;
};

// The keys: names, locales, sequences of emoji, and one to three Han characters.
namespace keys {
icu::UnicodeString name(), locale(), emoji(), han();
}

// A list of about `count` keys. All values differ, or with `few_values` four of them alternate.
List list_of(const std::string &name, size_t count, icu::UnicodeString (*key)(),
             bool few_values = false);

// One list of each kind, in which all values differ.
std::vector<List> four_lists();

// The keys of a list, joined by spaces.
std::vector<uint16_t> text_of(const List &list);
