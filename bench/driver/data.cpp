#include "data.hpp"
#include "bench.hpp"
#include <cstdio>
#include <unicode/utf8.h>

using std::string;
using std::vector;

static vector<Table> all_tables;

void read_table(const char *file) {
    FILE *in = fopen(file, "r");
    if (!in) fail(string(file) + " can't be opened");
    string name = file;
    name = name.substr(name.rfind('/') + 1);
    Table table = {name.substr(0, name.find('.')), {}, 0};
    for (const Table &other : all_tables)
        if (other.name == table.name) return;
    char line[4096];
    while (fgets(line, sizeof line, in)) {
        Row row;
        if (sscanf(line, "%x..%x;%u", &row.start, &row.end, &row.value) != 3) {
            if (sscanf(line, "%x;%u", &row.start, &row.value) != 2) continue;
            row.end = row.start;
        }
        if (row.start > row.end || row.end > 0x10FFFF)
            fail(string(file) + " has a row of no code points");
        if (row.value > table.greatest) table.greatest = row.value;
        table.rows.push_back(row);
    }
    fclose(in);
    if (table.rows.empty()) fail(string(file) + " has no rows");
    all_tables.push_back(table);
}

const vector<Table> &tables() { return all_tables; }

const vector<uint8_t> &categories() {
    static vector<uint8_t> all;
    if (!all.empty()) return all;
    all.assign(0x110000, UNASSIGNED);
    for (const Table &table : tables())
        if (table.name == "general_category")
            for (const Row &row : table.rows)
                for (uint32_t c = row.start; c <= row.end; c++) all[c] = row.value;
    return all;
}

// Returns a character for a text of this kind; `word` is the number of the word that contains it.
static uint32_t character(const string &kind, uint32_t word) {
    static const struct {
        uint32_t first, count;
    } scripts[] = {{0x61, 26},   {0x3B1, 25},    {0x430, 32},      {0x561, 38},
                   {0x5D0, 27},  {0x627, 36},    {0x905, 53},      {0xE01, 46},
                   {0x10D0, 33}, {0x1200, 0x50}, {0xAC00, 0x2000}, {0x30A1, 86}};
    const uint32_t r = random_number(100);
    if (kind == "latin" && r < 25) return 0xC0 + random_number(0xC0);
    if (kind == "cjk")
        return r < 10   ? 0x3001 + random_number(2)
               : r < 45 ? 0x3041 + random_number(86)
                        : 0x4E00 + random_number(0x5200);
    if (kind == "scripts") {
        const auto &script = scripts[word % 12];
        return r < 16 ? ' ' : script.first + random_number(script.count);
    }
    if (kind == "emoji")
        return r < 10   ? 0x200D
               : r < 20 ? 0xFE0F
               : r < 30 ? 0x1F3FB + random_number(5)
                        : 0x1F300 + random_number(0x350);
    if (kind == "han") return 0x20000 + random_number(0xA6D0);
    return r < 16 ? ' ' : r < 20 ? '.' : r < 26 ? 'A' + random_number(26) : 'a' + random_number(26);
}

vector<Text> texts(size_t characters) {
    vector<Text> all;
    for (const char *kind : {"ascii", "latin", "cjk", "scripts", "emoji", "han"}) {
        Text text = {kind, "", characters};
        for (size_t i = 0; i < characters; i++) {
            uint8_t bytes[4];
            int32_t length = 0;
            const uint32_t c = character(kind, i / 16);
            U8_APPEND_UNSAFE(bytes, length, c);
            text.bytes.append(reinterpret_cast<char *>(bytes), length);
        }
        all.push_back(text);
    }
    return all;
}
