/* What unit_tries.cpp and sets.cpp share: checks, random numbers from a fixed seed, and the file of
   rows that they write for rust/tests/src/public/as_icu.rs. The file consists of 16-bit numbers
   in the byte order of the machine. A number of 32 bits is two of them, the lower half first. */
#ifndef ROWS_HPP
#define ROWS_HPP

#include <cstdint>
#include <cstdio>
#include <cstdlib>
#include <vector>

#define CHECK(x)                                                                         \
    do {                                                                                 \
        if (!(x)) {                                                                      \
            fprintf(stderr, "%s:%d: not so: %s\n", __FILE__, __LINE__, #x);              \
            exit(1);                                                                     \
        }                                                                                \
    } while (0)

/* Returns 48 random bits. */
static inline uint64_t random_bits() {
    static uint64_t state = 88172645463325252u;
    state ^= state << 13;
    state ^= state >> 7;
    state ^= state << 17;
    return state >> 16;
}

/* Returns a random number below the limit. */
static inline uint32_t below(uint32_t limit) { return (uint32_t)(random_bits() % limit); }

class Rows {
    std::vector<uint16_t> numbers;

public:
    void one(uint32_t number) { numbers.push_back((uint16_t)number); }

    void two(uint32_t number) {
        one(number & 0xFFFF);
        one(number >> 16);
    }

    /* The number of units, and the units. */
    template <class List> void list(const List &units) {
        two((uint32_t)units.size());
        for (auto unit : units) one(unit);
    }

    void write(const char *path) const {
        FILE *file = fopen(path, "wb");
        CHECK(file);
        CHECK(fwrite(numbers.data(), 2, numbers.size(), file) == numbers.size());
        CHECK(fclose(file) == 0);
    }
};

#endif
