/* One thing, many times over, for tools/count-instructions. */
#include <stdio.h>
#include <string.h>
#include "drive.h"

/* Kept out of sight of the compiler, so that no turn is left out. */
static volatile uint8_t seen;

static int unlike(const char *what, size_t octets)
{
    fprintf(stderr, "drive: %s gives %zu octets\n", what, octets);
    return 1;
}

/* The empty list, and one of eight unknown five-digit numbers. */
#define LIST_EMPTY 12
#define LIST_EIGHT 207

static struct sconcetoad_entries none(void)
{
    struct sconcetoad_entries list;
    memset(&list, 0, sizeof list);
    return list;
}

static struct sconcetoad_entries eight(void)
{
    struct sconcetoad_entries list = none();
    list.count = SCONCETOAD_ENTRIES;
    for (int i = 0; i < SCONCETOAD_ENTRIES; i++) {
        struct sconcetoad_entry *e = &list.entries[i];
        e->served.count = 5;
        memcpy(e->served.digits, "13579", 5);
        e->service = (uint8_t)(32 + i);
        e->procedure = 1;
        e->address.number.count = 5;
        memcpy(e->address.number.digits, "24680", 5);
    }
    return list;
}

static int bench_write_list(const char *what, struct sconcetoad_entries list, size_t length, long turns)
{
    uint8_t out[SCONCETOAD_OUTPUT];
    for (long i = 0; i < turns; i++) {
        size_t count = sconcetoad_put_list(out, sizeof out, 1, list).count;
        if (count != length)
            return unlike(what, count);
    }
    return 0;
}

static int bench_read_list(long turns)
{
    uint8_t out[SCONCETOAD_OUTPUT];
    size_t length = sconcetoad_put_list(out, sizeof out, 1, eight()).count;
    for (long i = 0; i < turns; i++)
        seen = sconcetoad_reply(out, length, 1, SCONCETOAD_INTERROGATION).list.entries[7].address.number.digits[4];
    return 0;
}

static int bench_request(long turns)
{
    for (long i = 0; i < turns; i++)
        seen = sconcetoad_said(activation, ACTIVATION_SIZE).request.to.address.number.digits[4];
    return 0;
}

static int bench_arrival(const char *what, const struct occasion *o, long turns)
{
    uint8_t out[SCONCETOAD_OUTPUT];
    for (long i = 0; i < turns; i++) {
        struct sconcetoad_arrival arrival =
            sconcetoad_arrive(o->table, o->access, sizeof o->access, o->component, o->size, out, sizeof out);
        if (arrival.refusal != SCONCETOAD_ANSWERED || arrival.count != o->reply)
            return unlike(what, arrival.count);
    }
    return 0;
}

/* A call of speech for the first number that met busy, diverted once before: passed on an empty table, diverted on a full one. */
static const uint8_t call[SCONCETOAD_CALL] = {0, 1, 1, 1, 2, 1, 1, 5, '9', '7', '5', '3', '1'};

static int bench_call(const char *what, const struct occasion *o, int reason, long turns)
{
    for (long i = 0; i < turns; i++)
        if (sconcetoad_divert(o->table, o->access, sizeof o->access, call, sizeof call).reason != reason)
            return unlike(what, 0);
    return 0;
}

static int bench_original(const char *what, const struct occasion *o, long turns)
{
    uint8_t digits[SCONCETOAD_DIGITS];
    for (long i = 0; i < turns; i++)
        if (sconcetoad_original(o->table, o->access, sizeof o->access, call, sizeof call, digits, sizeof digits).count != 5)
            return unlike(what, 0);
    return 0;
}

/* The sheets of the two tables, without instances and with 24 of five digits. */
#define SHEET_EMPTY 3
#define SHEET_FULL 291

/* The dearest arrival's table, whose sheet is then the longest. */
static int longest_sheet(struct occasion *o)
{
    int there = scale_named("arrive-dearest", o);
    o->table.last = 32767;
    return there;
}

static int bench_write_sheet(const char *what, const struct occasion *o, size_t count, long turns)
{
    uint8_t out[SCONCETOAD_SHEET];
    for (long i = 0; i < turns; i++)
        if (sconcetoad_write_sheet(o->table, o->access, sizeof o->access, out, sizeof out).count != count)
            return unlike(what, 0);
    return 0;
}

static int bench_read_sheet(const char *what, const struct occasion *o, long turns)
{
    uint8_t sheet[SCONCETOAD_SHEET];
    size_t count = sconcetoad_write_sheet(o->table, o->access, sizeof o->access, sheet, sizeof sheet).count;
    for (long i = 0; i < turns; i++)
        if (sconcetoad_read_sheet(o->access, sizeof o->access, sheet, count).refusal != SCONCETOAD_ANSWERED)
            return unlike(what, count);
    return 0;
}

static int bench_list_sheet(const char *what, const struct occasion *o, long turns)
{
    uint8_t sheet[SCONCETOAD_SHEET], out[SCONCETOAD_LISTING];
    size_t count = sconcetoad_write_sheet(o->table, o->access, sizeof o->access, sheet, sizeof sheet).count;
    for (long i = 0; i < turns; i++)
        if (sconcetoad_list_sheet(sheet, count, out, sizeof out).refusal != SCONCETOAD_ANSWERED)
            return unlike(what, count);
    return 0;
}

int bench(const char *what, long turns)
{
    struct occasion occasion;
    if (strcmp(what, "sheet-write-empty") == 0 && occasion_named("arrive-activation-empty", &occasion))
        return bench_write_sheet(what, &occasion, SHEET_EMPTY, turns);
    if (strcmp(what, "sheet-write-full") == 0 && occasion_named("arrive-activation-full", &occasion))
        return bench_write_sheet(what, &occasion, SHEET_FULL, turns);
    if (strcmp(what, "sheet-read-full") == 0 && occasion_named("arrive-activation-full", &occasion))
        return bench_read_sheet(what, &occasion, turns);
    if (strcmp(what, "sheet-write-longest") == 0 && longest_sheet(&occasion))
        return bench_write_sheet(what, &occasion, SCONCETOAD_SHEET, turns);
    if (strcmp(what, "sheet-read-longest") == 0 && longest_sheet(&occasion))
        return bench_read_sheet(what, &occasion, turns);
    if (strcmp(what, "sheet-list-longest") == 0 && longest_sheet(&occasion))
        return bench_list_sheet(what, &occasion, turns);
    if (strcmp(what, "sheet-list-full") == 0 && occasion_named("arrive-activation-full", &occasion))
        return bench_list_sheet(what, &occasion, turns);
    if (strcmp(what, "divert-empty") == 0 && occasion_named("arrive-activation-empty", &occasion))
        return bench_call(what, &occasion, 0, turns);
    if (strcmp(what, "divert-full") == 0 && occasion_named("arrive-activation-full", &occasion))
        return bench_call(what, &occasion, 2, turns);
    if (strcmp(what, "original-full") == 0 && occasion_named("arrive-activation-full", &occasion))
        return bench_original(what, &occasion, turns);
    if (strcmp(what, "write-empty-list") == 0)
        return bench_write_list(what, none(), LIST_EMPTY, turns);
    if (strcmp(what, "write-list") == 0)
        return bench_write_list(what, eight(), LIST_EIGHT, turns);
    if (strcmp(what, "read-list") == 0)
        return bench_read_list(turns);
    if (strcmp(what, "read-activation") == 0)
        return bench_request(turns);
    if (occasion_named(what, &occasion) || scale_named(what, &occasion))
        return bench_arrival(what, &occasion, turns);
    if (strncmp(what, "send-", 5) == 0 || strncmp(what, "taken-", 6) == 0 || strncmp(what, "shown-", 6) == 0)
        return bench_desk(what, turns) ? unlike(what, 0) : 0;
    fprintf(stderr, "drive: nothing is called %s\n", what);
    return 2;
}
