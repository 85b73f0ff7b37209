/* Calls. */
#include <string.h>
#include "fuzz.h"

static void make_call(uint8_t *call)
{
    memset(call, 0, SCONCETOAD_CALL);
    call[0] = (uint8_t)below(world.profile[0]);
    call[1] = one_in(8) ? service_codes[below(sizeof service_codes)] : service_of_profile();
    call[2] = (uint8_t)below(3);
    call[3] = (uint8_t)below(6);
    call[4] = (uint8_t)below(3);
    call[5] = (uint8_t)below(2);
    call[6] = (uint8_t)below(3);
    call[7] = (uint8_t)below(21);
    for (int i = 0; i < call[7]; i++)
        call[8 + i] = (uint8_t)('0' + below(10));
}

static void take_call(void)
{
    size_t count = SCONCETOAD_CALL;
    make_call(lent_octets(&world.given));
    if (one_in(12))
        mutate(lent_octets(&world.given), &count, 64);
    world.given.size = count;
}

/* Whether a call goes on; what it hands on is within the ranges of document 01. */
static int goes_on(const struct sconcetoad_diversion *diversion)
{
    static const struct sconcetoad_onward none;
    if (diversion->refusal != SCONCETOAD_ANSWERED || diversion->reason == 0) {
        must(diversion->reason == 0 && diversion->notice == 0 && memcmp(&diversion->call, &none, sizeof none) == 0,
             "a call goes on that is not diverted");
        return 0;
    }
    must(diversion->reason == lent_octets(&world.given)[2] + 1, "another reason than the event's");
    must(diversion->call.counter == lent_octets(&world.given)[3] + 1, "a counter that is not one more");
    must(diversion->notice <= 2 && diversion->notice == diversion->call.option, "another notice than the option's");
    return 1;
}

void try_call(void)
{
    at_hand("call");
    take_access();
    take_table();
    take_call();
    world.out.size = one_in(8) ? below(SCONCETOAD_DIGITS) : SCONCETOAD_DIGITS;
    lend(&world.access);
    lend(&world.given);
    lend_filled(&world.out);
    const uint8_t *access = lend_room(ACCESS_ROOM, &world.access);
    const uint8_t *call = lend_room(GIVEN_ROOM, &world.given);
    uint8_t *out = lend_room(OUT_ROOM, &world.out);
    struct sconcetoad_diversion diversion = sconcetoad_divert(world.table, access, world.access.size, call, world.given.size);
    struct sconcetoad_handed_on original =
        sconcetoad_original(world.table, access, world.access.size, call, world.given.size, out, world.out.size);
    must(room_back(ACCESS_ROOM, &world.access, 0) && room_back(GIVEN_ROOM, &world.given, 0) && original.length <= SCONCETOAD_DIGITS &&
             room_back(OUT_ROOM, &world.out, original.count),
         "an octet is altered that should not be");
    int on = goes_on(&diversion);
    reached(DIVERT, diversion.refusal != SCONCETOAD_ANSWERED ? diversion.refusal : on ? YES : NO);
    must(original.refusal == diversion.refusal && original.reason == diversion.reason, "another thing is told of the original number");
    must(on || original.length == 0, "an original number, and no call goes on");
    must(original.count == (original.length <= world.out.size ? original.length : 0), "not all of the digits, and not none");
    reached(ORIGINAL, original.refusal != SCONCETOAD_ANSWERED     ? original.refusal
                      : !on                                       ? NO
                      : original.length == 0                      ? ABSENT
                      : original.count == 0                       ? NO_ROOM
                                                                  : YES);
}
