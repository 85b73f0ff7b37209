/* The records that are lent as octets: where each field of the header's structs stands in them. */
#include <stdio.h>
#include <string.h>
#include "drive.h"

/* Each octet that is not 0, after its place. */
static void say_octets(const char *name, const void *record, size_t size)
{
    const uint8_t *octets = (const uint8_t *)record;
    printf("%s: %zu octets:", name, size);
    for (size_t i = 0; i < size; i++)
        if (octets[i] != 0)
            printf(" %zu=%d", i, octets[i]);
    printf("\n");
}

static void say_access(void)
{
    struct sconcetoad_access access;
    memset(&access, 0, sizeof access);
    access.numbercount = 1;
    access.numbers[0].form = 2;
    access.numbers[0].digits[0] = 3;
    access.numbers[3].digits[19] = 4;
    access.servicecount = 5;
    access.services[0] = 6;
    access.services[5] = 7;
    access.subscribed[0] = 8;
    access.msn = 9;
    access.all = 10;
    access.inuse = 11;
    access.counted = 12;
    access.option = 13;
    access.release = 14;
    access.limit = 15;
    access.prefixcount = 16;
    access.prefixes[0].count = 17;
    access.prefixes[0].digits[0] = 18;
    access.prefixes[15].digits[19] = 19;
    say_octets("access record", &access, sizeof access);
}

static void say_call(void)
{
    struct sconcetoad_call call;
    memset(&call, 0, sizeof call);
    call.number = 1;
    call.service = 2;
    call.event = 3;
    call.counter = 4;
    call.option = 5;
    call.presentation = 6;
    call.preference = 7;
    call.count = 8;
    call.digits[0] = 9;
    call.digits[19] = 10;
    say_octets("call record", &call, sizeof call);
}

void say_lent_records(void)
{
    say_access();
    say_call();
}
