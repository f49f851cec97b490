/* Numbers at random, the same for the same seed (xorshift with a multiplication). For any_octets. */
#include "any_octets.h"

#include <string.h>

static uint64_t state = 1;

void random_seed(uint64_t seed) {
    state = seed * 0x9E3779B97F4A7C15u + 0x1234567;
    if (state == 0) {
        state = 1;
    }
    for (int i = 0; i < 8; i++) {
        random_number();
    }
}

uint64_t random_number(void) {
    state ^= state >> 12;
    state ^= state << 25;
    state ^= state >> 27;
    return state * 0x2545F4914F6CDD1Du;
}

/* 0 to limit - 1; 0 where the limit is 0. */
size_t random_below(size_t limit) { return limit == 0 ? 0 : (size_t)((random_number() >> 8) % limit); }

bool chance(unsigned percent) { return random_below(100) < percent; }

void random_fill(void *octets, size_t count) {
    uint8_t *to = octets;
    while (count >= 8) {
        uint64_t n = random_number();
        memcpy(to, &n, 8);
        to += 8;
        count -= 8;
    }
    while (count-- > 0) {
        *to++ = (uint8_t)(random_number() >> 32);
    }
}
