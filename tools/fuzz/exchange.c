/* A component arrives at the exchange. */
#include <string.h>
#include "fuzz.h"

/* What a reply says, by its tag and its last octets: an error's value, a reject's problem behind its tag. */
static int reply_of(const uint8_t *reply, size_t count)
{
    if (count == 0)
        return SILENCE;
    if (reply[0] == 0xA2)
        return reply[1] == 2u + reply[3] ? RESULT : LISTED;
    if (reply[0] == 0xA3)
        return ERROR + reply[count - 1];
    return (reply[count - 3] == 0x80 ? GENERAL : INVOKE) + reply[count - 1];
}

static int answers(int reply)
{
    return reply == RESULT || reply == LISTED || (reply >= ERROR && reply < GENERAL);
}

/* Rejects and silence change nothing; an error no registration; and only on a counted end does the last handled identifier move. */
static void check_table(const struct sconcetoad_table *next, int reply)
{
    int same = memcmp(&next->run, &world.table.run, sizeof next->run) == 0;
    int moves = answers(reply) && lent_octets(&world.access)[ACCESS_COUNTED] == 1;
    must(same || reply == RESULT, "a registration is altered, and not by a result");
    must(moves ? next->last > world.table.last : next->last == world.table.last, "the last handled identifier is not as it must be");
    must(comes_back(next, &world.access), "the next table is not good, or does not come back from its night sheet");
}

static void check_reply(const struct sconcetoad_arrival *arrival, int reply)
{
    struct sconcetoad_said said = sconcetoad_said(lent_octets(&world.given), world.given.size);
    must(said.asks == 1 || !answers(reply), "what is no request is answered as one");
    must(reply != LISTED || sconcetoad_reply(lent_octets(&world.out), arrival->count, said.identifier, SCONCETOAD_INTERROGATION).kind ==
                                SCONCETOAD_REPLY_LISTED,
         "a list that the end cannot read");
}

static void check_answered(const struct sconcetoad_arrival *arrival)
{
    int reply = reply_of(lent_octets(&world.out), arrival->count);
    reached(REPLY, reply);
    check_reply(arrival, reply);
    check_table(&arrival->table, reply);
}

void try_arrival(void)
{
    at_hand("component");
    take_access();
    take_table();
    take_component(make_component);
    take_out(SCONCETOAD_OUTPUT);
    lend(&world.access);
    lend(&world.given);
    lend_filled(&world.out);
    const uint8_t *access = lend_room(ACCESS_ROOM, &world.access);
    const uint8_t *component = lend_room(GIVEN_ROOM, &world.given);
    uint8_t *out = lend_room(OUT_ROOM, &world.out);
    struct sconcetoad_arrival arrival =
        sconcetoad_arrive(world.table, access, world.access.size, component, world.given.size, out, world.out.size);
    must(arrival.count <= SCONCETOAD_OUTPUT && room_back(ACCESS_ROOM, &world.access, 0) && room_back(GIVEN_ROOM, &world.given, 0) &&
             room_back(OUT_ROOM, &world.out, written_of(arrival.refusal, arrival.count)),
         "an octet is altered that should not be");
    reached(ARRIVE, arrival.refusal);
    if (arrival.refusal == SCONCETOAD_ANSWERED) {
        check_answered(&arrival);
        if (world.as_it_was)
            world.held = arrival.table;
        return;
    }
    must(arrival.count == 0, "a refusal with a reply");
    must(arrival.table.last == world.table.last && memcmp(&arrival.table.run, &world.table.run, sizeof arrival.table.run) == 0,
         "a refusal alters the table");
}
