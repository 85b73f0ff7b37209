/* What the sizes of the header decide: what comes of one octet less than each of them, of just as many, and of one more. What must come of
   it is in limits.expected, by document 01; so another number in the header is another line here. */
#include <stdio.h>
#include <string.h>
#include "drive.h"

static struct lent access_record, given, output;
static struct sconcetoad_table table;

/* A number and an address that take the most octets in a list, a sheet and a listing. */
static struct sconcetoad_number longest_number(void)
{
    struct sconcetoad_number number;
    number.form = 1;
    number.kind = 6;
    number.count = sizeof number.digits;
    memset(number.digits, '9', sizeof number.digits);
    return number;
}

static struct sconcetoad_address longest_address(void)
{
    struct sconcetoad_address address;
    address.number = longest_number();
    address.subcount = sizeof address.sub;
    memset(address.sub, 0xFF, sizeof address.sub);
    return address;
}

/* Services of two digits each, which are listed at the greatest length. */
#define FIRST_SERVICE 32
#define SERVICES 6
#define NUMBERS 4

/* The widest access, and the fullest table of it: with the last numbers and services, which take the most characters in a listing. */
static void fill(void)
{
    memset(lent_octets(&access_record), 0, LENT_MOST);
    wide_access(lent_octets(&access_record));
    for (int i = 0; i < SERVICES; i++)
        lent_octets(&access_record)[ACCESS_SERVICES + i] = (uint8_t)(FIRST_SERVICE + i);
    table = sconcetoad_fresh_table();
    table.last = 32767;
    table.run.count = SCONCETOAD_INSTANCES;
    for (int i = 0; i < SCONCETOAD_INSTANCES; i++) {
        int pair = NUMBERS * SERVICES - SCONCETOAD_ENTRIES + i % SCONCETOAD_ENTRIES;
        struct sconcetoad_instance *instance = &table.run.run[i];
        instance->procedure = (uint8_t)(i / SCONCETOAD_ENTRIES);
        instance->number = (uint8_t)(pair / SERVICES);
        instance->service = (uint8_t)(FIRST_SERVICE + pair % SERVICES);
        instance->address = longest_address();
    }
}

/* Sizes that refuse nothing, for all but the one that is tried. */
static void allow(void)
{
    access_record.size = SCONCETOAD_ACCESS;
    output.size = LENT_MOST;
    memset(lent_octets(&given), 0, LENT_MOST);
}

static void lend_all(void)
{
    lend(&access_record);
    lend(&given);
    lend_filled(&output);
}

static void say_kept(size_t written)
{
    if (written > output.size || !came_back(&access_record, 0) || !came_back(&given, 0) || !came_back(&output, written))
        printf(" spilled");
}

static void say_written(uint8_t refusal, size_t count)
{
    if (refusal == SCONCETOAD_ANSWERED)
        printf(" %zu octets", count);
    else
        printf(" %s", refusal_said(refusal));
    say_kept(written_of(refusal, count));
}

/* A component with an outer tag that is none of the known ones, which is rejected by seven octets. */
static void arrive_as_long(size_t size)
{
    uint8_t *octets = lent_octets(&given);
    octets[0] = 0xA5;
    octets[1] = 0x82;
    octets[2] = (uint8_t)((size - 4) / 256);
    octets[3] = (uint8_t)((size - 4) % 256);
    given.size = size;
    lend_all();
    struct sconcetoad_arrival arrival = sconcetoad_arrive(table, lent_octets(&access_record), access_record.size, lent_octets(&given),
                                                          given.size, lent_octets(&output), output.size);
    say_written(arrival.refusal, arrival.count);
}

static void arrive_at_output(size_t size)
{
    output.size = size;
    arrive_as_long(4);
}

static void arrive_at_access(size_t size)
{
    access_record.size = size;
    arrive_as_long(4);
}

/* A call for the last number and service that met busy, and came first for a number of twenty digits. */
static void give_call(size_t size)
{
    static const uint8_t fields[] = {3, FIRST_SERVICE + SERVICES - 1, 1, 1, 0, 1, 0, 20};
    memcpy(lent_octets(&given), fields, sizeof fields);
    memset(lent_octets(&given) + sizeof fields, '9', 20);
    given.size = size;
}

static void divert_as_long(size_t size)
{
    give_call(size);
    lend_all();
    struct sconcetoad_diversion diversion =
        sconcetoad_divert(table, lent_octets(&access_record), access_record.size, lent_octets(&given), given.size);
    if (diversion.refusal == SCONCETOAD_ANSWERED)
        printf(diversion.reason == 2 ? " diverted" : " not diverted");
    else
        printf(" %s", refusal_said(diversion.refusal));
    say_kept(0);
}

static void original_at_output(size_t size)
{
    give_call(SCONCETOAD_CALL);
    output.size = size;
    lend_all();
    struct sconcetoad_handed_on original = sconcetoad_original(table, lent_octets(&access_record), access_record.size, lent_octets(&given),
                                                               given.size, lent_octets(&output), output.size);
    printf(" reason %d, of %zu", original.reason, original.length);
    say_written(original.refusal, original.count);
}

static struct sconcetoad_entries longest_list(void)
{
    struct sconcetoad_entries list;
    list.count = SCONCETOAD_ENTRIES;
    for (int i = 0; i < SCONCETOAD_ENTRIES; i++) {
        list.entries[i].served = longest_number();
        list.entries[i].service = (uint8_t)(FIRST_SERVICE + i);
        list.entries[i].procedure = 2;
        list.entries[i].address = longest_address();
    }
    return list;
}

static void list_at_output(size_t size)
{
    output.size = size;
    lend_all();
    struct sconcetoad_octets put = sconcetoad_put_list(lent_octets(&output), output.size, 32767, longest_list());
    say_written(put.refusal, put.count);
}

/* The longest request: an activation with a two-octet identifier, which has 95 octets. */
static void request_at_output(size_t size)
{
    struct sconcetoad_request request;
    memset(&request, 0, sizeof request);
    request.procedure = SCONCETOAD_CFNR;
    request.service = FIRST_SERVICE;
    request.served.number = longest_number();
    request.to.address = longest_address();
    output.size = size;
    lend_all();
    struct sconcetoad_octets put =
        sconcetoad_put_request(lent_octets(&output), output.size, 32767, SCONCETOAD_ACTIVATION, request);
    say_written(put.refusal, put.count);
}

/* A list that counts as many entries. */
static void list_of_entries(size_t count)
{
    struct sconcetoad_entries list = longest_list();
    list.count = (uint8_t)count;
    lend_all();
    struct sconcetoad_octets put = sconcetoad_put_list(lent_octets(&output), output.size, 32767, list);
    say_written(put.refusal, put.count);
}

static void sheet_at_output(size_t size)
{
    output.size = size;
    lend_all();
    struct sconcetoad_octets written =
        sconcetoad_write_sheet(table, lent_octets(&access_record), access_record.size, lent_octets(&output), output.size);
    say_written(written.refusal, written.count);
}

/* The sheet of the fullest table. */
static void give_sheet(void)
{
    given.size = sconcetoad_write_sheet(table, lent_octets(&access_record), access_record.size, lent_octets(&given), LENT_MOST).count;
}

static void listing_at_output(size_t size)
{
    give_sheet();
    output.size = size;
    lend_all();
    struct sconcetoad_octets listed =
        sconcetoad_list_sheet(lent_octets(&given), given.size, lent_octets(&output), output.size);
    say_written(listed.refusal, listed.count);
}

static const struct {
    const char *name;
    size_t size;
    void (*trial)(size_t size);
} sizes[] = {
    {"output", SCONCETOAD_OUTPUT, arrive_at_output},
    {"component", SCONCETOAD_COMPONENT, arrive_as_long},
    {"access record", SCONCETOAD_ACCESS, arrive_at_access},
    {"call record", SCONCETOAD_CALL, divert_as_long},
    {"digits", SCONCETOAD_DIGITS, original_at_output},
    {"request", SCONCETOAD_OUTPUT, request_at_output},
    {"list", SCONCETOAD_OUTPUT, list_at_output},
    {"list's count", SCONCETOAD_ENTRIES, list_of_entries},
    {"sheet", SCONCETOAD_SHEET, sheet_at_output},
    {"listing", SCONCETOAD_LISTING, listing_at_output},
};

/* The sizes of what goes over as a record: how much of the fullest list and of the fullest table comes back. */
static void say_records(void)
{
    allow();
    size_t count = sconcetoad_put_list(lent_octets(&output), output.size, 1, longest_list()).count;
    struct sconcetoad_replied replied = sconcetoad_reply(lent_octets(&output), count, 1, SCONCETOAD_INTERROGATION);
    printf("entries: %d, and %d are listed\n", SCONCETOAD_ENTRIES, replied.kind == SCONCETOAD_REPLY_LISTED ? replied.list.count : 0);
    give_sheet();
    struct sconcetoad_sheet_taken taken =
        sconcetoad_read_sheet(lent_octets(&access_record), access_record.size, lent_octets(&given), given.size);
    printf("instances: %d, and %d are read\n", table.run.count, taken.table.run.count);
    printf("table: %s\n", sizeof table == SCONCETOAD_TABLE ? "of the size said" : "of another size");
}

/* Where nothing is lent there may be no pointer. */
static void say_null(void)
{
    struct sconcetoad_request none;
    memset(&none, 0, sizeof none);
    allow();
    printf("NULL: row %d", sconcetoad_said(NULL, 0).row);
    printf(", %s", refusal_said(sconcetoad_arrive(table, NULL, 0, NULL, 0, lent_octets(&output), output.size).refusal));
    printf(", %zu octets", sconcetoad_arrive(table, lent_octets(&access_record), access_record.size, NULL, 0, lent_octets(&output), output.size).count);
    printf(", %s", refusal_said(sconcetoad_put_request(NULL, 0, 1, SCONCETOAD_ACTIVATION, none).refusal));
    printf(", %s\n", refusal_said(sconcetoad_list_sheet(NULL, 0, lent_octets(&output), output.size).refusal));
}

int limits(void)
{
    fill();
    for (size_t i = 0; i < sizeof sizes / sizeof sizes[0]; i++) {
        printf("%s:", sizes[i].name);
        for (size_t size = sizes[i].size - 1; size <= sizes[i].size + 1; size++) {
            allow();
            sizes[i].trial(size);
            printf(size <= sizes[i].size ? "," : "\n");
        }
        if (say_canaries())
            return 1;
    }
    say_records();
    say_lent_records();
    say_null();
    return 0;
}
