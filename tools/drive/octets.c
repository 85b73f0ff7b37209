/* Octets as lines have them. */
#include "drive.h"

static int digit_from(char c)
{
    if (c >= '0' && c <= '9')
        return c - '0';
    if (c >= 'A' && c <= 'F')
        return c - 'A' + 10;
    return -1;
}

long octets_from(const char *text, uint8_t *octets, size_t most)
{
    size_t count = 0;
    for (; *text; text += 2) {
        int high = digit_from(text[0]);
        int low = high < 0 ? -1 : digit_from(text[1]);
        if (low < 0 || count == most)
            return -1;
        octets[count++] = (uint8_t)(high * 16 + low);
    }
    return (long)count;
}

char *octets_to(char *at, const uint8_t *octets, size_t count)
{
    static const char digits[] = "0123456789ABCDEF";
    for (size_t i = 0; i < count; i++) {
        *at++ = digits[octets[i] / 16];
        *at++ = digits[octets[i] % 16];
    }
    return at;
}

char *spaced_to(char *at, const uint8_t *octets, size_t count)
{
    for (size_t i = 0; i < count; i++) {
        *at++ = ' ';
        at = octets_to(at, octets + i, 1);
    }
    return at;
}
