/* Night sheets: written, read, listed. */
#include <string.h>
#include "fuzz.h"

static void try_write(void)
{
    at_hand("write");
    take_access();
    take_table();
    take_out(SCONCETOAD_SHEET);
    lend(&world.access);
    lend_filled(&world.out);
    const uint8_t *access = lend_room(ACCESS_ROOM, &world.access);
    uint8_t *out = lend_room(OUT_ROOM, &world.out);
    struct sconcetoad_octets written = sconcetoad_write_sheet(world.table, access, world.access.size, out, world.out.size);
    must(room_back(ACCESS_ROOM, &world.access, 0) && room_back(OUT_ROOM, &world.out, written_of(written.refusal, written.count)),
         "an octet is altered that should not be");
    must(written.refusal == SCONCETOAD_ANSWERED ? written.count <= SCONCETOAD_SHEET : written.count == 0, "a sheet of another length");
    reached(WRITE_SHEET, written.refusal);
}

/* The sheet of the table there is, as it was written, mutated, or with more after it. */
static void take_sheet(void)
{
    world.given.size = sconcetoad_write_sheet(world.held, world.profile, sizeof world.profile, lent_octets(&world.given), LENT_MOST).count;
    if (one_in(2))
        mutate(lent_octets(&world.given), &world.given.size, 2000);
    lend(&world.given);
}

static void try_read(void)
{
    at_hand("read");
    take_access();
    take_sheet();
    lend(&world.access);
    const uint8_t *access = lend_room(ACCESS_ROOM, &world.access);
    const uint8_t *sheet = lend_room(GIVEN_ROOM, &world.given);
    struct sconcetoad_sheet_taken taken = sconcetoad_read_sheet(access, world.access.size, sheet, world.given.size);
    must(room_back(ACCESS_ROOM, &world.access, 0) && room_back(GIVEN_ROOM, &world.given, 0), "an octet is altered that should not be");
    reached(READ_SHEET, taken.refusal);
    if (taken.refusal == SCONCETOAD_ANSWERED)
        must(comes_back(&taken.table, &world.access), "the table that was read is not good");
    else
        must(taken.table.last == 0 && taken.table.run.count == 0, "a refused sheet, and a table that is not new");
}

static void try_listing(void)
{
    at_hand("list");
    take_sheet();
    take_out(SCONCETOAD_LISTING);
    lend_filled(&world.out);
    const uint8_t *sheet = lend_room(GIVEN_ROOM, &world.given);
    uint8_t *out = lend_room(OUT_ROOM, &world.out);
    struct sconcetoad_octets listed = sconcetoad_list_sheet(sheet, world.given.size, out, world.out.size);
    must(room_back(GIVEN_ROOM, &world.given, 0) && room_back(OUT_ROOM, &world.out, written_of(listed.refusal, listed.count)),
         "an octet is altered that should not be");
    reached(LIST_SHEET, listed.refusal);
    if (listed.refusal == SCONCETOAD_ANSWERED)
        must(listed.count > 0 && lent_octets(&world.out)[listed.count - 1] == '\n', "a listing that does not end with its line");
    else
        must(listed.count == 0, "a refusal with a listing");
}

void try_sheet(void)
{
    switch (below(3)) {
    case 0: try_write(); break;
    case 1: try_read(); break;
    default: try_listing(); break;
    }
}
