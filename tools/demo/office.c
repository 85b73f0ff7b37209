/* The desk's end and the exchange, both through the border to C. */
#include <stdio.h>
#include <stdlib.h>
#include <string.h>
#include "demo.h"
#include "../drive/drive.h"

const char wholesaler[] =
    "number  u 13579   # one number, of unknown form\n"
    "service 1         # speech\n"
    "cfu     yes       # may forward every call,\n"
    "cfb     yes       # those that meet busy,\n"
    "cfnr    yes       # and those that nobody answers\n"
    "msn     no        # no multiple subscriber number: every request is for 13579\n"
    "all     no        # the \"all numbers\" option, which matters only with msn\n"
    "inuse   yes\n"
    "counted yes       # the end counts its requests, so that the exchange takes none twice\n"
    "option  2         # callers are told that their call is diverting, and to which number\n"
    "release yes       # 13579 may be shown where a call goes on\n"
    "limit   5         # a call is diverted at most five times\n"
    "prefix  0900      # calls are not forwarded to numbers that begin with it\n";

static uint8_t access_record[SCONCETOAD_ACCESS];
static struct sconcetoad_end end;
static struct sconcetoad_table table;

void must(int holds, const char *what)
{
    if (holds)
        return;
    fprintf(stderr, "demo: %s\n", what);
    exit(1);
}

void office_opens(void)
{
    struct profile_fault fault;
    must(profile_from(wholesaler, access_record, &fault), "the library refuses the profile");
    end = sconcetoad_fresh_end();
    table = sconcetoad_fresh_table();
}

/* ---- the desk */

static struct sconcetoad_request of_speech(uint8_t procedure)
{
    struct sconcetoad_request request;
    memset(&request, 0, sizeof request);
    request.procedure = procedure;
    request.service = 1;
    request.served.all = 1;
    return request;
}

static size_t sent(const struct sconcetoad_sending *sending)
{
    must(sending->refusal == SCONCETOAD_ANSWERED, "the end refuses to send");
    end = sending->end;
    return sending->count;
}

struct octets desk_registers(uint8_t procedure, const char *digits)
{
    struct octets component;
    struct sconcetoad_request request = of_speech(procedure);
    struct sconcetoad_number *to = &request.to.address.number;
    to->count = (uint8_t)strlen(digits);
    memcpy(to->digits, digits, to->count);
    struct sconcetoad_sending sending =
        sconcetoad_activate(end, access_record, sizeof access_record, request, component.at, sizeof component.at);
    component.count = sent(&sending);
    return component;
}

struct octets desk_cancels(uint8_t procedure)
{
    struct octets component;
    struct sconcetoad_sending sending =
        sconcetoad_deactivate(end, access_record, sizeof access_record, of_speech(procedure), component.at, sizeof component.at);
    component.count = sent(&sending);
    return component;
}

static struct sconcetoad_sending asking(uint8_t procedure, struct octets *component)
{
    return sconcetoad_interrogate(end, access_record, sizeof access_record, procedure, component->at, sizeof component->at);
}

struct octets desk_asks(uint8_t procedure)
{
    struct octets component;
    struct sconcetoad_sending sending = asking(procedure, &component);
    component.count = sent(&sending);
    return component;
}

int desk_refuses(uint8_t procedure)
{
    struct octets component;
    return asking(procedure, &component).refusal;
}

void desk_takes(const struct octets *reply)
{
    must(sconcetoad_arrived(&end, access_record, sizeof access_record, reply->at, reply->count) == SCONCETOAD_ANSWERED,
         "the end refuses what arrives");
}

void desk_gives_up(void)
{
    struct sconcetoad_moving moving = sconcetoad_give_up(end, access_record, sizeof access_record);
    must(moving.refusal == SCONCETOAD_ANSWERED, "the end refuses to give up");
    end = moving.end;
}

struct sconcetoad_page desk_page(uint8_t procedure)
{
    struct sconcetoad_page page = sconcetoad_shown(end, access_record, sizeof access_record, procedure);
    must(page.refusal == SCONCETOAD_ANSWERED, "the page is refused");
    return page;
}

struct sconcetoad_entry desk_entry(uint8_t procedure, size_t place)
{
    struct sconcetoad_page_entry out = sconcetoad_entry(end, access_record, sizeof access_record, procedure, place);
    must(out.page.mark == SCONCETOAD_KNOWN && place < out.page.count, "an entry of the page is missing");
    return out.entry;
}

/* ---- the exchange */

struct octets exchange_answers(const struct octets *component)
{
    struct octets reply;
    struct sconcetoad_arrival arrival =
        sconcetoad_arrive(table, access_record, sizeof access_record, component->at, component->count, reply.at, sizeof reply.at);
    must(arrival.refusal == SCONCETOAD_ANSWERED && arrival.count > 0, "the exchange does not answer");
    table = arrival.table;
    reply.count = arrival.count;
    return reply;
}

struct sconcetoad_diversion exchange_diverts(const uint8_t *call)
{
    return sconcetoad_divert(table, access_record, sizeof access_record, call, SCONCETOAD_CALL);
}

struct octets exchange_sheet(void)
{
    struct octets sheet;
    struct sconcetoad_octets written =
        sconcetoad_write_sheet(table, access_record, sizeof access_record, sheet.at, sizeof sheet.at);
    must(written.refusal == SCONCETOAD_ANSWERED, "the table is not written as a night sheet");
    sheet.count = written.count;
    return sheet;
}
