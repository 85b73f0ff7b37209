/* The customer end: what it sends, what arrives at it, and its page. */
#include <string.h>
#include "fuzz.h"

static int same_end(const struct sconcetoad_end *one, const struct sconcetoad_end *other)
{
    return memcmp(one, other, sizeof *one) == 0;
}

/* An end that is handed back is good: what the page reads of it is not refused. */
static void check_next(const struct sconcetoad_end *next, uint8_t refusal)
{
    if (refusal != SCONCETOAD_ANSWERED)
        must(same_end(next, &world.end), "a refusal alters the end");
    else
        must(sconcetoad_shown(*next, lent_octets(&world.access), world.access.size, 0).refusal == SCONCETOAD_ANSWERED, "the next end is not good");
    if (refusal == SCONCETOAD_ANSWERED && world.as_it_was)
        world.kept = *next;
}

static struct sconcetoad_sending sends(int operation, const uint8_t *access, uint8_t *out)
{
    if (operation == 7)
        return sconcetoad_activate(world.end, access, world.access.size, world.request, out, world.out.size);
    if (operation == 8)
        return sconcetoad_deactivate(world.end, access, world.access.size, world.request, out, world.out.size);
    return sconcetoad_interrogate(world.end, access, world.access.size, world.request.procedure, out, world.out.size);
}

static void check_sent(int operation, const struct sconcetoad_sending *sending)
{
    struct sconcetoad_said said = sconcetoad_said(lent_octets(&world.out), sending->count);
    must(sending->end.used == world.end.used + 1 && sending->end.outstanding == 1, "a request is sent, and the end does not wait for it");
    must(said.asks == 1 && said.identifier == sending->end.used && said.operation == operation &&
             said.request.procedure == world.request.procedure,
         "another request is sent");
}

void try_sending(void)
{
    static const struct {
        int operation;
        enum asked asked;
        const char *line;
    } kinds[] = {{7, SEND_7, "send 7"}, {8, SEND_8, "send 8"}, {11, SEND_11, "send 11"}};
    unsigned kind = below(3);
    at_hand(kinds[kind].line);
    take_access();
    take_end();
    take_out(SCONCETOAD_OUTPUT);
    world.request = make_request();
    lend(&world.access);
    lend_filled(&world.out);
    const uint8_t *access = lend_room(ACCESS_ROOM, &world.access);
    uint8_t *out = lend_room(OUT_ROOM, &world.out);
    struct sconcetoad_sending sending = sends(kinds[kind].operation, access, out);
    must(room_back(ACCESS_ROOM, &world.access, 0) && room_back(OUT_ROOM, &world.out, written_of(sending.refusal, sending.count)),
         "an octet is altered that should not be");
    reached(kinds[kind].asked, sending.refusal);
    if (sending.refusal == SCONCETOAD_ANSWERED)
        check_sent(kinds[kind].operation, &sending);
    else
        must(sending.count == 0, "a refusal with a component");
    check_next(&sending.end, sending.refusal);
}

/* The one place that hands an end over to what arrives at it. */
static struct sconcetoad_moving arrives(const uint8_t *access, const uint8_t *component)
{
    struct sconcetoad_moving moving;
    memset(&moving, 0, sizeof moving);
    moving.end = world.end;
    moving.refusal = sconcetoad_arrived(&moving.end, access, world.access.size, component, world.given.size);
    return moving;
}

static int taken(const struct sconcetoad_end *next)
{
    if (!world.end.outstanding || next->outstanding) {
        must(same_end(next, &world.end), "what is dropped alters the end");
        return DROPPED;
    }
    return next->marks[world.end.request.procedure] == SCONCETOAD_KNOWN ? CLOSED_KNOWN : CLOSED_DOUBT;
}

void try_arrived(void)
{
    at_hand("arrived");
    take_access();
    take_end();
    take_component(make_reply);
    lend(&world.access);
    lend(&world.given);
    const uint8_t *access = lend_room(ACCESS_ROOM, &world.access);
    const uint8_t *component = lend_room(GIVEN_ROOM, &world.given);
    struct sconcetoad_moving moving = arrives(access, component);
    must(room_back(ACCESS_ROOM, &world.access, 0) && room_back(GIVEN_ROOM, &world.given, 0), "an octet is altered that should not be");
    reached(ARRIVED, moving.refusal);
    if (moving.refusal == SCONCETOAD_ANSWERED)
        reached(TAKEN, taken(&moving.end));
    check_next(&moving.end, moving.refusal);
}

static void try_giving_up(void)
{
    at_hand("give-up");
    take_access();
    take_end();
    lend(&world.access);
    struct sconcetoad_moving moving = sconcetoad_give_up(world.end, lend_room(ACCESS_ROOM, &world.access), world.access.size);
    must(room_back(ACCESS_ROOM, &world.access, 0), "an octet is altered that should not be");
    reached(GIVE_UP, moving.refusal);
    if (moving.refusal == SCONCETOAD_ANSWERED && world.end.outstanding)
        must(moving.end.marks[world.end.request.procedure] == SCONCETOAD_DOUBT && !moving.end.outstanding, "given up, and no doubt");
    else
        must(same_end(&moving.end, &world.end), "giving up nothing alters the end");
    check_next(&moving.end, moving.refusal);
}

static void check_page(const struct sconcetoad_page *page)
{
    if (page->refusal == SCONCETOAD_ANSWERED && page->mark == SCONCETOAD_KNOWN)
        must(page->count <= SCONCETOAD_ENTRIES, "a page of more entries than there may be");
    else
        must(page->mark == SCONCETOAD_DOUBT && page->count == SCONCETOAD_NO_COUNT, "a page that is not known has a count");
}

static void try_shown(void)
{
    static const struct sconcetoad_entry none;
    size_t place = below(10);
    at_hand("shown");
    world.request.procedure = (uint8_t)(one_in(12) ? below(256) : below(3));
    take_access();
    take_end();
    lend(&world.access);
    const uint8_t *access = lend_room(ACCESS_ROOM, &world.access);
    struct sconcetoad_page page = sconcetoad_shown(world.end, access, world.access.size, world.request.procedure);
    struct sconcetoad_page_entry entry = sconcetoad_entry(world.end, access, world.access.size, world.request.procedure, place);
    must(room_back(ACCESS_ROOM, &world.access, 0), "an octet is altered that should not be");
    check_page(&page);
    reached(SHOWN, page.refusal == SCONCETOAD_ANSWERED && page.mark == SCONCETOAD_DOUBT ? DOUBTED : page.refusal);
    int there = page.refusal == SCONCETOAD_ANSWERED && page.mark == SCONCETOAD_KNOWN && place < page.count;
    must(entry.page.refusal == page.refusal && entry.page.mark == page.mark && entry.page.count == page.count, "an entry has another page");
    must(there || memcmp(&entry.entry, &none, sizeof none) == 0, "an entry where there is none");
    must(!there || entry.entry.service != 0, "no entry where there is one");
    reached(ENTRY, there ? YES : NO);
}

void try_page(void)
{
    if (one_in(4))
        try_giving_up();
    else
        try_shown();
}
