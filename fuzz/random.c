// Splitmix64.
#include "fuzz.h"

static uint64_t state;

void draw_from(uint64_t seed) { state = seed; }

uint64_t draw(void) {
    uint64_t z = state += 0x9E3779B97F4A7C15;
    z = (z ^ z >> 30) * 0xBF58476D1CE4E5B9;
    z = (z ^ z >> 27) * 0x94D049BB133111EB;
    return z ^ z >> 31;
}

uint32_t below(uint32_t n) { return (uint32_t)((draw() >> 32) * n >> 32); }

int one_in(uint32_t n) { return below(n) == 0; }
