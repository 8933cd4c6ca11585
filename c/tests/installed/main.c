#include <bekstaudi.h>
int main(void) {
    const uint32_t ends[] = {0x41, 0x5B};
    return bks_set_contains(ends, 2, 0x41) ? 0 : 1;
}
