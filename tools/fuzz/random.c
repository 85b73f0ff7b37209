/* Numbers from a seed: xorshift64*. */
#include "fuzz.h"

static uint64_t state;

void seed_with(uint64_t seed)
{
    state = seed * 0x9E3779B97F4A7C15u + 1;
    for (int i = 0; i < 8; i++)
        below(2);
}

unsigned below(unsigned n)
{
    state ^= state >> 12;
    state ^= state << 25;
    state ^= state >> 27;
    return (unsigned)((state * 0x2545F4914F6CDD1Du >> 33) % n);
}

int one_in(unsigned n)
{
    return below(n) == 0;
}
