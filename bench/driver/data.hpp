// The tables of the command line, and generated texts.
#pragma once
#include "calls.hpp"
#include <string>
#include <vector>

struct Table {
    std::string name;
    std::vector<Row> rows;
    uint32_t greatest;
};

// Reads a file of rows HEX..HEX;N and HEX;N, unless a file of the same name was read before.
void read_table(const char *file);

const std::vector<Table> &tables();

// The general category of each code point, by the number of ICU's u_charType.
const std::vector<uint8_t> &categories();
enum Category {
    UNASSIGNED = 0,
    FIRST_LETTER = 1,
    LAST_LETTER = 5,
    FIRST_MARK = 6,
    LAST_MARK = 8
};

struct Text {
    std::string name, bytes;
    size_t characters;
};

// One text of each kind, with this many characters.
std::vector<Text> texts(size_t characters);
