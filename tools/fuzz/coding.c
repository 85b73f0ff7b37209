/* Requests, replies and lists by themselves, read and written. */
#include <string.h>
#include "fuzz.h"

/* The identifier of the request that is outstanding where a reply is read, as in the cases. */
#define OUTSTANDING 5

static int zeros(const void *octets, size_t count)
{
    for (size_t i = 0; i < count; i++)
        if (((const uint8_t *)octets)[i] != 0)
            return 0;
    return 1;
}

static void try_said(void)
{
    case_at_hand("component");
    take_component(make_component);
    lend(&world.given);
    struct sconcetoad_said said = sconcetoad_said(lend_room(GIVEN_ROOM, &world.given), world.given.size);
    must(room_back(GIVEN_ROOM, &world.given, 0), "a component is altered");
    must(said.asks == 1 || (said.asks == 0 && zeros(&said.request, sizeof said.request)), "no request, and yet one");
    must(said.asks == 0 || said.row == SCONCETOAD_ROW_ASKS, "a request at a row at which there is none");
    must(said.asks == 0 || said.operation == SCONCETOAD_ACTIVATION || said.operation == SCONCETOAD_DEACTIVATION || said.operation == SCONCETOAD_INTERROGATION, "a request of another operation");
    reached(SAID, said.asks == 1 ? YES : said.row);
}

static void try_reply(void)
{
    static const uint8_t operations[] = {SCONCETOAD_ACTIVATION, SCONCETOAD_DEACTIVATION, SCONCETOAD_INTERROGATION};
    static const char *const cases[] = {"reply-7", "reply-8", "list-read"};
    unsigned which = one_in(2) ? 2 : below(3);
    case_at_hand(cases[which]);
    world.end.used = OUTSTANDING;
    take_component(make_reply);
    lend(&world.given);
    struct sconcetoad_replied replied =
        sconcetoad_reply(lend_room(GIVEN_ROOM, &world.given), world.given.size, OUTSTANDING, operations[which]);
    must(room_back(GIVEN_ROOM, &world.given, 0), "a reply is altered");
    must(replied.kind == SCONCETOAD_REPLY_LISTED ? replied.list.count <= SCONCETOAD_ENTRIES : replied.list.count == SCONCETOAD_NO_COUNT,
         "a list of no entries where there is none");
    must(replied.kind == SCONCETOAD_REPLY_FAILED || replied.value == 0, "a value of what is no error");
    reached(REPLIED, KIND + replied.kind);
}

/* Any octets may stand in the request; one that is written is read as the same operation of the same procedure. */
static void try_put_request(void)
{
    case_at_hand("component");
    world.given.size = 0;
    int16_t identifier = (int16_t)((int)below(65536) - 32768);
    struct sconcetoad_request request = make_request();
    if (one_in(3))
        mutate_record(&request, sizeof request);
    uint8_t operation = (uint8_t)(one_in(8) ? below(256) : one_in(2) ? SCONCETOAD_ACTIVATION : SCONCETOAD_DEACTIVATION);
    world.out.size = below(8) ? SCONCETOAD_OUTPUT + below(40) : below(SCONCETOAD_OUTPUT);
    lend_filled(&world.out);
    struct sconcetoad_octets put =
        sconcetoad_put_request(lend_room(OUT_ROOM, &world.out), world.out.size, identifier, operation, request);
    must(put.refusal == SCONCETOAD_ANSWERED || put.count == 0, "a request is refused, and yet has octets");
    must(put.count <= 95 && room_back(OUT_ROOM, &world.out, put.count), "a request is written where it should not be");
    reached(PUT_REQUEST, put.refusal);
    if (put.count == 0)
        return;
    struct sconcetoad_said said = sconcetoad_said(lent_octets(&world.out), put.count);
    must(said.asks == 1 && said.identifier == identifier && said.operation == operation && said.request.procedure == request.procedure,
         "a request does not read back");
}

/* Any octets may stand in the list; a good one reads back. */
static void try_put_list(void)
{
    case_at_hand("list-write");
    int16_t identifier = (int16_t)((int)below(65536) - 32768);
    struct sconcetoad_entries list = make_entries((uint8_t)below(3));
    int good = !one_in(4);
    if (!good)
        mutate_record(&list, sizeof list);
    lent_octets(&world.given)[0] = (uint8_t)((unsigned)identifier >> 8);
    lent_octets(&world.given)[1] = (uint8_t)identifier;
    world.given.size = 2 + (list.count < SCONCETOAD_ENTRIES ? list.count : SCONCETOAD_ENTRIES) * sizeof list.entries[0];
    memcpy(lent_octets(&world.given) + 2, list.entries, world.given.size - 2);
    world.out.size = below(8) ? SCONCETOAD_OUTPUT + below(40) : below(SCONCETOAD_OUTPUT);
    lend_filled(&world.out);
    struct sconcetoad_octets put = sconcetoad_put_list(lend_room(OUT_ROOM, &world.out), world.out.size, identifier, list);
    must(put.refusal == SCONCETOAD_ANSWERED || put.count == 0, "a list is refused, and yet has octets");
    must(put.count <= SCONCETOAD_OUTPUT && room_back(OUT_ROOM, &world.out, put.count), "a list is written where it should not be");
    reached(PUT_LIST, put.refusal);
    if (!good || put.count == 0)
        return;
    struct sconcetoad_replied replied = sconcetoad_reply(lent_octets(&world.out), put.count, identifier, SCONCETOAD_INTERROGATION);
    must(replied.kind == SCONCETOAD_REPLY_LISTED && memcmp(&replied.list, &list, sizeof list) == 0, "a list does not read back");
}

void try_coding(void)
{
    switch (below(4)) {
    case 0: try_said(); break;
    case 1: try_reply(); break;
    case 2: try_put_request(); break;
    default: try_put_list(); break;
    }
}
