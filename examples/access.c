/* Two accesses, made by hand. */
#include "access.h"
#include <string.h>

/* An office with two numbers (MSN, "all numbers"), three services, every procedure, and a prefix that nothing is forwarded to; and a shop
   with one number, which forwards speech when it is busy. */
static const struct {
    const char *name;
    const char *numbers[4];
    uint8_t services[6];
    uint8_t subscribed[3];
    const char *prefix;
} accesses[] = {
    {"office", {"13579", "13580", NULL, NULL}, {1, 2, 32, 0, 0, 0}, {1, 1, 1}, "112"},
    {"shop", {"24680", NULL, NULL, NULL}, {1, 0, 0, 0, 0, 0}, {0, 1, 0}, NULL},
};

const char *access_name(size_t place)
{
    return place < sizeof accesses / sizeof accesses[0] ? accesses[place].name : NULL;
}

static uint8_t put_digits(uint8_t *places, const char *digits)
{
    memcpy(places, digits, strlen(digits));
    return (uint8_t)strlen(digits);
}

static void put_access(size_t place, struct sconcetoad_access *access)
{
    memset(access, 0, sizeof *access);
    for (int i = 0; i < 4 && accesses[place].numbers[i]; i++) {
        struct sconcetoad_number *number = &access->numbers[access->numbercount++];
        number->form = SCONCETOAD_UNKNOWN;
        number->count = put_digits(number->digits, accesses[place].numbers[i]);
    }
    for (int i = 0; i < 6 && accesses[place].services[i]; i++)
        access->services[access->servicecount++] = accesses[place].services[i];
    memcpy(access->subscribed, accesses[place].subscribed, sizeof access->subscribed);
    access->msn = access->all = access->numbercount > 1;
    access->inuse = access->counted = access->release = 1;
    access->option = 2;
    access->limit = 5;
    if (accesses[place].prefix) {
        access->prefixes[0].count = put_digits(access->prefixes[0].digits, accesses[place].prefix);
        access->prefixcount = 1;
    }
}

int access_named(const char *name, uint8_t *record)
{
    for (size_t place = 0; access_name(place); place++)
        if (strcmp(name, access_name(place)) == 0) {
            struct sconcetoad_access access;
            put_access(place, &access);
            memcpy(record, &access, sizeof access);
            return 1;
        }
    return 0;
}
