/* Random words for the programs of this folder: the same ones in every run. */
#include <stdint.h>

static uint32_t seed = 20240607u;

static uint32_t word(void) {
    seed ^= seed << 13;
    seed ^= seed >> 17;
    seed ^= seed << 5;
    return seed;
}
