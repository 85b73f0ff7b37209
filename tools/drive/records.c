/* Records octet by octet, in the order of docs/RECORDS.md. Each field goes by its name, and no record goes as a whole: so where the header
   has fields in another order than the library, other octets are handed over and printed. */
#include <string.h>
#include "drive.h"

static const uint8_t *places_from(const uint8_t *at, uint8_t *places, size_t count)
{
    memcpy(places, at, count);
    return at + count;
}

static uint8_t *places_to(uint8_t *at, const uint8_t *places, size_t count)
{
    memcpy(at, places, count);
    return at + count;
}

static const uint8_t *number_from(const uint8_t *at, struct sconcetoad_number *number)
{
    number->form = *at++;
    number->kind = *at++;
    number->count = *at++;
    return places_from(at, number->digits, sizeof number->digits);
}

static uint8_t *number_to(uint8_t *at, const struct sconcetoad_number *number)
{
    *at++ = number->form;
    *at++ = number->kind;
    *at++ = number->count;
    return places_to(at, number->digits, sizeof number->digits);
}

static const uint8_t *address_from(const uint8_t *at, struct sconcetoad_address *address)
{
    at = number_from(at, &address->number);
    address->subcount = *at++;
    return places_from(at, address->sub, sizeof address->sub);
}

static uint8_t *address_to(uint8_t *at, const struct sconcetoad_address *address)
{
    at = number_to(at, &address->number);
    *at++ = address->subcount;
    return places_to(at, address->sub, sizeof address->sub);
}

const uint8_t *entry_from(const uint8_t *at, struct sconcetoad_entry *entry)
{
    at = number_from(at, &entry->served);
    entry->service = *at++;
    entry->procedure = *at++;
    return address_from(at, &entry->address);
}

uint8_t *entry_to(uint8_t *at, const struct sconcetoad_entry *entry)
{
    at = number_to(at, &entry->served);
    *at++ = entry->service;
    *at++ = entry->procedure;
    return address_to(at, &entry->address);
}

uint8_t *onward_to(uint8_t *at, const struct sconcetoad_onward *onward)
{
    *at++ = onward->counter;
    at = address_to(at, &onward->called);
    at = number_to(at, &onward->redirecting);
    *at++ = onward->redirectingshown;
    *at++ = onward->originalshown;
    *at++ = onward->preference;
    *at++ = onward->option;
    return number_to(at, &onward->noticed);
}

/* The octets of an instance in a line. */
#define INSTANCE 47

static const uint8_t *instance_from(const uint8_t *at, struct sconcetoad_instance *instance)
{
    instance->procedure = *at++;
    instance->number = *at++;
    instance->service = *at++;
    return address_from(at, &instance->address);
}

static uint8_t *instance_to(uint8_t *at, const struct sconcetoad_instance *instance)
{
    *at++ = instance->procedure;
    *at++ = instance->number;
    *at++ = instance->service;
    return address_to(at, &instance->address);
}

static int all_zeros(const uint8_t *octets, size_t count)
{
    for (size_t i = 0; i < count; i++)
        if (octets[i] != 0)
            return 0;
    return 1;
}

/* The count and the places that are given; the others become zeros. */
static int run_from(const uint8_t *at, const uint8_t *end, struct sconcetoad_run *run)
{
    if (at >= end || (size_t)(end - at - 1) % INSTANCE != 0)
        return 0;
    memset(run, 0, sizeof *run);
    run->count = *at++;
    for (struct sconcetoad_instance *instance = run->run; at < end; instance++)
        at = instance_from(at, instance);
    return 1;
}

/* Ends with the last place that is not all zeros. */
static uint8_t *run_to(uint8_t *at, const struct sconcetoad_run *run)
{
    *at++ = run->count;
    uint8_t *last = at;
    for (int place = 0; place < SCONCETOAD_INSTANCES; place++) {
        uint8_t *end = instance_to(at, &run->run[place]);
        if (!all_zeros(at, (size_t)(end - at)))
            last = end;
        at = end;
    }
    return last;
}

/* An identifier, the most significant octet first. */
static uint16_t identifier_from(const uint8_t *octets)
{
    return (uint16_t)(octets[0] * 256 + octets[1]);
}

static uint8_t *identifier_to(uint8_t *at, uint16_t identifier)
{
    *at++ = (uint8_t)(identifier / 256);
    *at++ = (uint8_t)(identifier % 256);
    return at;
}

int table_from(const uint8_t *octets, size_t count, struct sconcetoad_table *table)
{
    if (count < 2 || count > TABLE_MOST || !run_from(octets + 2, octets + count, &table->run))
        return 0;
    table->last = identifier_from(octets);
    return 1;
}

size_t table_to(uint8_t *octets, const struct sconcetoad_table *table)
{
    return (size_t)(run_to(identifier_to(octets, table->last), &table->run) - octets);
}

const uint8_t *request_from(const uint8_t *at, struct sconcetoad_request *request)
{
    request->procedure = *at++;
    request->service = *at++;
    request->served.all = *at++;
    at = number_from(at, &request->served.number);
    at = address_from(at, &request->to.address);
    request->to.user = *at++;
    return at;
}

static uint8_t *request_to(uint8_t *at, const struct sconcetoad_request *request)
{
    *at++ = request->procedure;
    *at++ = request->service;
    *at++ = request->served.all;
    at = number_to(at, &request->served.number);
    at = address_to(at, &request->to.address);
    *at++ = request->to.user;
    return at;
}

/* What stands before an end's picture. */
#define END_HEAD (END_MOST - 1 - SCONCETOAD_INSTANCES * INSTANCE)

int end_from(const uint8_t *octets, size_t count, struct sconcetoad_end *end)
{
    uint8_t head[END_HEAD + 1] = {0};
    if (count > END_MOST)
        return 0;
    memcpy(head, octets, count < sizeof head ? count : sizeof head);
    const uint8_t *at = head;
    end->used = identifier_from(at);
    at += 2;
    end->outstanding = *at++;
    end->operation = *at++;
    end->before = *at++;
    at = request_from(at, &end->request);
    at = places_from(at, end->marks, sizeof end->marks);
    return count > END_HEAD ? run_from(octets + END_HEAD, octets + count, &end->picture) : run_from(at, at + 1, &end->picture);
}

size_t end_to(uint8_t *octets, const struct sconcetoad_end *end)
{
    uint8_t *at = identifier_to(octets, end->used);
    *at++ = end->outstanding;
    *at++ = end->operation;
    *at++ = end->before;
    at = request_to(at, &end->request);
    at = places_to(at, end->marks, sizeof end->marks);
    return (size_t)(run_to(at, &end->picture) - octets);
}
