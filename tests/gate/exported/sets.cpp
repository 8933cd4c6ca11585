/* Writes random sets, their serialized forms by ICU4C (uset_serialize), and what ICU4C reads from
   damaged ones (uset_getSerializedSet, uset_getSerializedRange).
   Usage: sets FILE

   The file has the number of sets. Each set has:
   - its boundaries
   - 0 if it is too long for ICU; otherwise 1 and its units, followed by the damaged units and what
     ICU reads from them: 0 if it returns false; otherwise 1, the number of units of the set, and
     whether its two counts fit: 0, or 1 and the boundaries.
   If the counts do not fit, ICU's functions would read past the end of the units. Boundaries that
   ICU reads may be in any order. */
#include "rows.hpp"
#include <algorithm>
#include <unicode/uset.h>

enum { RANDOM_SETS = 60000, LONG_SETS = 8, MOST_UNITS = 0x7FFF };

typedef std::vector<uint16_t> unit_list;

/* Writes boundaries as a count and numbers of 32 bits. */
static void write_boundaries(Rows &rows, const std::vector<uint32_t> &boundaries) {
    rows.two((uint32_t)boundaries.size());
    for (uint32_t it : boundaries) rows.two(it);
}

/* Returns the boundaries of a set of code points. */
static std::vector<uint32_t> boundaries_of(const USet *set) {
    std::vector<uint32_t> boundaries;
    for (int32_t i = 0; i < uset_getItemCount(set); i++) {
        UErrorCode error = U_ZERO_ERROR;
        UChar32 first = 0, last = 0;
        CHECK(uset_getItem(set, i, &first, &last, nullptr, 0, &error) == 0 && U_SUCCESS(error));
        boundaries.push_back((uint32_t)first);
        boundaries.push_back((uint32_t)last + 1);
    }
    return boundaries;
}

/* Writes the set and its serialized form, and returns the form, or no units if it is too long. */
static unit_list write_set(Rows &rows, const USet *set) {
    write_boundaries(rows, boundaries_of(set));
    UErrorCode error = U_ZERO_ERROR;
    int32_t length = uset_serialize(set, nullptr, 0, &error);
    CHECK(error == U_BUFFER_OVERFLOW_ERROR || error == U_INDEX_OUTOFBOUNDS_ERROR);
    rows.one(error == U_BUFFER_OVERFLOW_ERROR);
    if (error == U_INDEX_OUTOFBOUNDS_ERROR) return {};
    error = U_ZERO_ERROR;
    unit_list units((size_t)length);
    CHECK(uset_serialize(set, units.data(), length, &error) == length && U_SUCCESS(error));
    rows.list(units);
    return units;
}

/* Writes the units and what ICU reads from them. */
static void write_read(Rows &rows, const unit_list &units) {
    USerializedSet set;
    bool is_read = uset_getSerializedSet(&set, units.data(), (int32_t)units.size());
    rows.list(units);
    rows.one(is_read);
    if (!is_read) return;
    bool fits = set.bmpLength <= set.length && (set.length - set.bmpLength) % 2 == 0;
    rows.two((uint32_t)(set.array - units.data() + set.length));
    rows.one(fits);
    if (!fits) return;
    std::vector<uint32_t> boundaries;
    for (int32_t i = 0; i < uset_getSerializedRangeCount(&set); i++) {
        UChar32 first = 0, last = 0;
        CHECK(uset_getSerializedRange(&set, i, &first, &last));
        boundaries.push_back((uint32_t)first);
        boundaries.push_back((uint32_t)last + 1);
    }
    write_boundaries(rows, boundaries);
}

/* Returns a unit that is near a limit, or any. */
static uint16_t random_unit() {
    static const uint16_t units[] = {0, 1, 2, 0x10, 0x11, 0x7FFF, 0x8000, 0xFFFF};
    return below(2) ? units[below(8)] : (uint16_t)below(0x10000);
}

/* Makes the last two units a boundary near the greatest one, 0x110000. */
static void put_last_boundary(unit_list &units) {
    uint32_t boundary = 0x10FFFF + below(3);
    if (units.size() < 2) return;
    units[units.size() - 2] = (uint16_t)(boundary >> 16);
    units.back() = (uint16_t)boundary;
}

/* Damages the units once: the two counts, or any unit. Units after the set are no damage. */
static void damage(unit_list &units) {
    uint32_t size = (uint32_t)units.size(), at = below(size);
    switch (below(11)) {
    case 0: units.resize(at); return;
    case 1: units.insert(units.begin() + at, random_unit()); return;
    case 2: units.erase(units.begin() + at); return;
    case 3: units[0] ^= 0x8000; return;
    case 4: units[0] = (uint16_t)(units[0] - 3 + below(7)); return;
    case 5: units[std::min(size - 1, 1u)] = (uint16_t)below(size + 3); return;
    case 6: units[at] = random_unit(); return;
    case 7: units[at] = (uint16_t)(units[at] - 1 + below(3)); return;
    case 8: std::swap(units[at], units[below(size)]); return;
    case 9: put_last_boundary(units); return;
    default: units.push_back(random_unit());
    }
}

/* Returns a random set: of code points up to U+00FF, of the BMP, of all, or of those above it. */
static USet *random_set() {
    static const uint32_t limits[][2] = {
        {0, 0x100}, {0, 0x10000}, {0, 0x110000}, {0x10000, 0x110000}};
    const uint32_t *limit = limits[below(4)];
    USet *set = uset_openEmpty();
    for (uint32_t count = below(14); count > 0; count--) {
        uint32_t first = limit[0] + below(limit[1] - limit[0]);
        uint32_t last = first + below(below(4) ? 40 : 0x4000);
        uset_addRange(set, (UChar32)first, (UChar32)std::min(last, 0x10FFFFu));
    }
    if (below(8) == 0) uset_add(set, 0);
    if (below(8) == 0) uset_add(set, 0x10FFFF);
    if (below(8) == 0) uset_complement(set);
    return set;
}

/* Returns the set with a boundary at each of the first code points, and at each of the first above
   the BMP: so many of each. */
static USet *long_set(uint32_t singles, uint32_t pairs) {
    USet *set = uset_openEmpty();
    for (uint32_t i = 0; i < singles + pairs; i += 2) {
        auto boundary = [&](uint32_t at) { return at < singles ? at : 0x10000 + at - singles; };
        uint32_t end = i + 1 < singles + pairs ? boundary(i + 1) : 0x110000;
        uset_addRange(set, (UChar32)boundary(i), (UChar32)end - 1);
    }
    return set;
}

int main(int count, char **words) {
    CHECK(count == 2);
    Rows rows;
    rows.two(RANDOM_SETS + LONG_SETS);
    for (uint32_t i = 0; i < RANDOM_SETS + LONG_SETS; i++) {
        // The long ones take from two units less than the most to one more, with and without pairs.
        uint32_t units_taken = MOST_UNITS - 2 + i % 4, pairs = i < 4 ? 0 : 0x2000;
        USet *set = i < LONG_SETS ? long_set(units_taken - 2 * pairs, pairs) : random_set();
        unit_list units = write_set(rows, set);
        uset_close(set);
        if (units.empty()) continue;
        for (uint32_t times = 1 + below(2); times > 0 && !units.empty(); times--) damage(units);
        write_read(rows, units);
    }
    rows.write(words[1]);
    return 0;
}
