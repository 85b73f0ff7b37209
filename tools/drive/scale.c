/* Arrivals that grow with one thing each, and the dearest that is known. */
#include <stdio.h>
#include <stdlib.h>
#include <string.h>
#include "drive.h"

#define ACCESS_NUMBERS 1
#define NUMBER_SIZE 23
#define ACCESS_PREFIXES 110
#define PREFIX_SIZE 21
#define PREFIXES 16

/* What an interrogation of cfb, for all services and all numbers, has in its argument. */
static const uint8_t asked[] = {0x0A, 0x01, 0x01, 0x0A, 0x01, 0x00, 0x05, 0x00};

/* The same of an activation, for speech, to 20 digits. */
static const uint8_t longest[] = {0x0A, 0x01, 0x01, 0x0A, 0x01, 0x01, 0x30, 0x16, 0x80, 0x14, '2', '4', '6', '8', '0', '1',
                                  '3',  '5',  '7',  '9',  '2',  '4',  '6',  '8',  '0',  '1',  '3', '5', '7', '0', 0x05, 0x00};

/* The longest list, whose identifier has one octet. */
#define LIST_LONGEST 706

static uint8_t component[SCONCETOAD_COMPONENT];

static uint8_t *head_to(uint8_t *at, uint8_t tag, size_t count)
{
    *at++ = tag;
    *at++ = 0x82;
    *at++ = (uint8_t)(count / 256);
    *at++ = (uint8_t)(count % 256);
    return at;
}

/* A request of `size` octets: after what is known of its argument, private elements without contents, which are skipped one by one. They are
   constructed, since of all that fit into two octets those take the most instructions. */
static void fill_component(struct occasion *o, uint8_t operation, const uint8_t *known, size_t count, size_t size)
{
    const uint8_t start[] = {0x02, 0x01, 0x02, 0x02, 0x01, operation};
    uint8_t *at = head_to(component, 0xA1, size - 4);
    memcpy(at, start, sizeof start);
    at = head_to(at + sizeof start, 0x30, size - 8 - sizeof start);
    memcpy(at, known, count);
    for (at += count; at < component + size; at += 2) {
        at[0] = 0xE0;
        at[1] = 0x00;
    }
    o->component = component;
    o->size = size;
}

/* The forwarded-to number but for its last digit, so that each prefix is compared to its end. */
static void set_prefixes(struct occasion *o, size_t count, const char *digits)
{
    o->access[ACCESS_PREFIXES] = (uint8_t)count;
    for (size_t i = 0; i < count; i++) {
        uint8_t *prefix = o->access + ACCESS_PREFIXES + 1 + PREFIX_SIZE * i;
        prefix[0] = (uint8_t)strlen(digits);
        memcpy(prefix + 1, digits, strlen(digits));
    }
}

/* At the widest profile, every number and subaddress as long as can be, and as many prefixes. */
static void lengthen(struct occasion *o)
{
    for (int i = 0; i < 4; i++) {
        uint8_t *number = o->access + ACCESS_NUMBERS + NUMBER_SIZE * i;
        memcpy(number, "\1\1\24" "1234567890123456789", 22);
        number[22] = (uint8_t)('1' + i);
    }
    set_prefixes(o, PREFIXES, "24680135792468013579");
    for (int i = 0; i < o->table.run.count; i++) {
        struct sconcetoad_address *to = &o->table.run.run[i].address;
        memcpy(&to->number, "\1\2\24" "24680135792468013579", NUMBER_SIZE);
        to->subcount = 20;
        memset(to->sub, 0xF7, sizeof to->sub);
    }
}

int scale_named(const char *name, struct occasion *o)
{
    const char *digits = strpbrk(name, "0123456789");
    size_t many = digits ? (size_t)atoi(digits) : 0;
    if (strcmp(name, "arrive-dearest") == 0 && occasion_named("arrive-interrogation-full", o)) {
        lengthen(o);
        fill_component(o, 11, asked, sizeof asked, SCONCETOAD_COMPONENT);
        o->reply = LIST_LONGEST;
        return 1;
    }
    if (strcmp(name, "arrive-dearest-activation") == 0 && occasion_named("arrive-activation-twenty", o)) {
        lengthen(o);
        fill_component(o, 7, longest, sizeof longest, SCONCETOAD_COMPONENT);
        return 1;
    }
    if (strncmp(name, "scale-instances-", 16) == 0 && occasion_named("arrive-activation-twenty", o) && many <= o->table.run.count) {
        o->table.run.count = (uint8_t)many;
        return 1;
    }
    if (strncmp(name, "scale-prefixes-", 15) == 0 && many <= PREFIXES && occasion_named("arrive-activation-empty", o)) {
        set_prefixes(o, many, "24689");
        return 1;
    }
    if (strncmp(name, "scale-octets-", 13) == 0 && many >= 22 && many <= SCONCETOAD_COMPONENT && many % 2 == 0 &&
        occasion_named("arrive-interrogation-empty", o)) {
        fill_component(o, 11, asked, sizeof asked, many);
        return 1;
    }
    return 0;
}
