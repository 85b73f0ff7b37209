/* Arrivals that are measured. */
#include <string.h>
#include "drive.h"

/* Document 01's activation sample: cfb, speech, to 24680, all numbers. */
const uint8_t activation[ACTIVATION_SIZE] = {
    0xA1, 0x19, 0x02, 0x01, 0x02, 0x02, 0x01, 0x07, 0x30, 0x11, 0x0A, 0x01, 0x01, 0x0A,
    0x01, 0x01, 0x30, 0x07, 0x80, 0x05, 0x32, 0x34, 0x36, 0x38, 0x30, 0x05, 0x00};

/* The same places deactivated, and all of cfb asked for. */
static const uint8_t deactivation[] = {
    0xA1, 0x10, 0x02, 0x01, 0x02, 0x02, 0x01, 0x08, 0x30, 0x08, 0x0A, 0x01, 0x01, 0x0A, 0x01, 0x01, 0x05, 0x00};
static const uint8_t interrogation[] = {
    0xA1, 0x10, 0x02, 0x01, 0x02, 0x02, 0x01, 0x0B, 0x30, 0x08, 0x0A, 0x01, 0x01, 0x0A, 0x01, 0x00, 0x05, 0x00};

/* The same question with a private element after it, which is skipped: eight elements, one in the other. */
static const uint8_t nested[] = {
    0xA1, 0x20, 0x02, 0x01, 0x02, 0x02, 0x01, 0x0B, 0x30, 0x18, 0x0A, 0x01, 0x01, 0x0A, 0x01, 0x00, 0x05, 0x00,
    0xE0, 0x0E, 0xE0, 0x0C, 0xE0, 0x0A, 0xE0, 0x08, 0xE0, 0x06, 0xE0, 0x04, 0xE0, 0x02, 0xC0, 0x00};

static void set_number(uint8_t *number, const char *digits)
{
    number[2] = (uint8_t)strlen(digits);
    memcpy(number + 3, digits, strlen(digits));
}

/* The profile of document 01's samples: one number, speech, cfb, no MSN, in use, a counted end. */
static void sample_access(uint8_t *access)
{
    static const uint8_t rest[] = {1, 1, 0, 0, 0, 0, 0, 0, 1, 0, 0, 0, 1, 1, 0, 0, 5, 0};
    access[0] = 1;
    set_number(access + 1, "13579");
    memcpy(access + 93, rest, sizeof rest);
}

void wide_access(uint8_t *access)
{
    static const char *const numbers[] = {"13579", "13580", "13581", "13582"};
    static const uint8_t rest[] = {6, 1, 2, 3, 4, 5, 32, 1, 1, 1, 1, 1, 1, 1, 0, 0, 5, 0};
    access[0] = 4;
    for (int i = 0; i < 4; i++)
        set_number(access + 1 + 23 * i, numbers[i]);
    memcpy(access + 93, rest, sizeof rest);
}

/* An instance of five digits after those that are there, which it must come after. */
static void add_instance(struct sconcetoad_table *table, int procedure, int number, int service)
{
    struct sconcetoad_instance *instance = &table->run.run[table->run.count++];
    instance->procedure = (uint8_t)procedure;
    instance->number = (uint8_t)number;
    instance->service = (uint8_t)(service + 1);
    instance->address.number.count = 5;
    memcpy(instance->address.number.digits, "24680", 5);
}

static void none(struct sconcetoad_table *table)
{
    (void)table;
}

/* The one instance that the samples' profile has a place for. */
static void one(struct sconcetoad_table *table)
{
    add_instance(table, 1, 0, 0);
}

/* Eight of a procedure: two services of each number. */
static void eight_of(struct sconcetoad_table *table, int procedure)
{
    for (int number = 0; number < 4; number++)
        for (int service = 0; service < 2; service++)
            add_instance(table, procedure, number, service);
}

static void eight(struct sconcetoad_table *table)
{
    eight_of(table, 1);
}

static void full(struct sconcetoad_table *table)
{
    for (int procedure = 0; procedure < SCONCETOAD_INSTANCES / SCONCETOAD_ENTRIES; procedure++)
        eight_of(table, procedure);
}

/* All of these but the four that the activation sample selects. */
static void twenty(struct sconcetoad_table *table)
{
    eight_of(table, 0);
    for (int number = 0; number < 4; number++)
        add_instance(table, 1, number, 1);
    eight_of(table, 2);
}

/* What arrives at which profile and table, with the last handled identifier, and how many octets the reply has. */
static const struct kind {
    const char *name;
    void (*access)(uint8_t *);
    void (*table)(struct sconcetoad_table *);
    const uint8_t *component;
    size_t size;
    uint16_t last;
    size_t reply;
} kinds[] = {
    {"arrive-sample-empty", sample_access, none, activation, sizeof activation, 1, 5},
    {"arrive-sample-full", sample_access, one, activation, sizeof activation, 1, 5},
    {"arrive-interrogation-eight", wide_access, eight, interrogation, sizeof interrogation, 1, 207},
    {"arrive-activation-empty", wide_access, none, activation, sizeof activation, 1, 5},
    {"arrive-activation-twenty", wide_access, twenty, activation, sizeof activation, 1, 5},
    {"arrive-activation-full", wide_access, full, activation, sizeof activation, 1, 5},
    {"arrive-deactivation-empty", wide_access, none, deactivation, sizeof deactivation, 1, 8}, /* error 46 */
    {"arrive-deactivation-full", wide_access, full, deactivation, sizeof deactivation, 1, 5},
    {"arrive-interrogation-empty", wide_access, none, interrogation, sizeof interrogation, 1, 12},
    {"arrive-interrogation-full", wide_access, full, interrogation, sizeof interrogation, 1, 207},
    {"arrive-duplicate-empty", wide_access, none, activation, sizeof activation, 2, 8},
    {"arrive-duplicate-full", wide_access, full, activation, sizeof activation, 2, 8},
    {"arrive-bad-empty", wide_access, none, activation, sizeof activation - 1, 1, 7}, /* its last octet is missing */
    {"arrive-bad-full", wide_access, full, activation, sizeof activation - 1, 1, 7},
    {"arrive-nested-empty", wide_access, none, nested, sizeof nested, 1, 12},
    {"arrive-nested-full", wide_access, full, nested, sizeof nested, 1, 207},
};

int occasion_numbered(size_t n, struct occasion *o)
{
    if (n >= sizeof kinds / sizeof kinds[0])
        return 0;
    const struct kind *kind = &kinds[n];
    o->name = kind->name;
    memset(o->access, 0, sizeof o->access);
    kind->access(o->access);
    o->table = sconcetoad_fresh_table();
    o->table.last = kind->last;
    kind->table(&o->table);
    o->component = kind->component;
    o->size = kind->size;
    o->reply = kind->reply;
    return 1;
}

int occasion_named(const char *name, struct occasion *o)
{
    for (size_t n = 0; occasion_numbered(n, o); n++)
        if (strcmp(name, o->name) == 0)
            return 1;
    return 0;
}
