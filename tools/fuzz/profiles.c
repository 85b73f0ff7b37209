/* Access records that obey the rules. */
#include <string.h>
#include "fuzz.h"

const uint8_t service_codes[16] = {1, 2, 3, 4, 5, 32, 33, 34, 35, 36, 37, 38, 39, 40, 41, 42};

static int same_number(const uint8_t *one, const uint8_t *other)
{
    return memcmp(one, other, 3 + (size_t)one[2]) == 0;
}

static void make_numbers(uint8_t *access, int count)
{
    access[0] = (uint8_t)count;
    for (int i = 0; i < count; i++) {
        uint8_t *at = access + ACCESS_NUMBERS + NUMBER_SIZE * i;
        int again;
        do {
            struct sconcetoad_number number = make_number();
            memcpy(at, &number, NUMBER_SIZE);
            again = 0;
            for (int j = 0; j < i; j++)
                again |= same_number(access + ACCESS_NUMBERS + NUMBER_SIZE * j, at);
        } while (again);
    }
}

static void make_services(uint8_t *access)
{
    uint8_t *count = access + ACCESS_SERVICECOUNT;
    unsigned wanted = 1 + below(6), left = sizeof service_codes;
    for (size_t i = 0; i < sizeof service_codes; i++, left--)
        if (*count < wanted && below(left) < wanted - *count) {
            ++*count;
            count[*count] = service_codes[i];
        }
}

static void make_prefixes(uint8_t *access)
{
    access[ACCESS_PREFIXCOUNT] = (uint8_t)(one_in(16) ? 16 : below(3));
    for (int i = 0; i < access[ACCESS_PREFIXCOUNT]; i++) {
        uint8_t *at = access + ACCESS_PREFIXES + PREFIX_SIZE * i;
        at[0] = (uint8_t)(1 + (one_in(8) ? below(20) : below(3)));
        for (int j = 0; j < at[0]; j++)
            at[1 + j] = (uint8_t)('0' + below(10));
    }
}

void make_access(uint8_t *access)
{
    int count = 1 + (int)below(4);
    memset(access, 0, SCONCETOAD_ACCESS);
    make_numbers(access, count);
    make_services(access);
    make_prefixes(access);
    uint8_t *at = access + ACCESS_SUBSCRIBED;
    for (int procedure = 0; procedure < 3; procedure++)
        *at++ = !one_in(6);
    *at++ = count > 1 || one_in(2); /* MSN */
    *at++ = !one_in(4);             /* "all numbers" */
    *at++ = !one_in(10);            /* in use */
    *at++ = !one_in(4);             /* counted */
    *at++ = (uint8_t)below(3);
    *at++ = (uint8_t)below(2);
    *at++ = (uint8_t)(1 + below(5));
}

struct sconcetoad_number number_of_profile(void)
{
    struct sconcetoad_number number;
    memcpy(&number, world.profile + ACCESS_NUMBERS + NUMBER_SIZE * below(world.profile[0]), NUMBER_SIZE);
    return number;
}

uint8_t service_of_profile(void)
{
    const uint8_t *services = world.profile + ACCESS_SERVICECOUNT;
    return services[1 + below(services[0])];
}
