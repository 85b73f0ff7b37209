/* Mutations. */
#include <string.h>
#include "fuzz.h"

/* Octets that mean something somewhere: ends of ranges, lengths, tags. */
static uint8_t telling(void)
{
    static const uint8_t octets[] = {0x00, 0x01, 0x02, 0x04, 0x05, 0x0A, 0x0B, 0x12, 0x1F, 0x30, 0x31, 0x39, 0x3A, 0x7F, 0x80, 0x81, 0x82,
                                     0x83, 0x84, 0xA1, 0xA2, 0xA3, 0xA4, 0xA5, 0xC0, 0xE0, 0xFF};
    return one_in(4) ? (uint8_t)below(256) : octets[below(sizeof octets)];
}

static void alter(uint8_t *octet)
{
    switch (below(4)) {
    case 0: *octet ^= (uint8_t)(1u << below(8)); break;
    case 1: *octet = (uint8_t)(*octet + 1); break;
    case 2: *octet = (uint8_t)(*octet - 1); break;
    default: *octet = telling(); break;
    }
}

static void leave_out(uint8_t *octets, size_t *count, size_t at, size_t many)
{
    memmove(octets + at, octets + at + many, *count - at - many);
    *count -= many;
}

static void put_in(uint8_t *octets, size_t *count, size_t at, size_t many)
{
    memmove(octets + at + many, octets + at, *count - at);
    for (size_t i = 0; i < many; i++)
        octets[at + i] = telling();
    *count += many;
}

void mutate(uint8_t *octets, size_t *count, size_t most)
{
    for (unsigned times = 1 + below(3); times > 0; times--) {
        size_t at = *count == 0 ? 0 : below((unsigned)*count);
        size_t many = 1 + (one_in(16) ? below(40) : below(3));
        switch (*count == 0 ? 4 : below(8)) {
        case 0: *count = at; break;
        case 1:
        case 2: leave_out(octets, count, at, many < *count - at ? many : *count - at); break;
        case 3:
        case 4: put_in(octets, count, at, many < most - *count ? many : most - *count); break;
        default: alter(&octets[at]); break;
        }
    }
}

void mutate_record(void *record, size_t size)
{
    /* the fields that decide how the rest is read stand first in most records */
    for (unsigned times = 1 + below(3); times > 0; times--)
        alter((uint8_t *)record + below((unsigned)(one_in(2) && size > 64 ? 64 : size)));
}
