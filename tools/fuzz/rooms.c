/* A room is a page of memory between two that nobody may touch. What is lent stands at its end, with its canary before it, or at its start, with
   its canary after it: so not only a write but a read beside it is noticed, of the library too, which no sanitizer of the compiler sees into. */
#define _DEFAULT_SOURCE
#include <string.h>
#include <sys/mman.h>
#include "fuzz.h"

#define PAGE 4096

static struct {
    uint8_t *page;
    uint8_t *octets;
    int at_end;
} rooms[ROOMS];

int make_rooms(void)
{
    for (int i = 0; i < ROOMS; i++) {
        void *memory = mmap(NULL, 3 * PAGE, PROT_NONE, MAP_PRIVATE | MAP_ANONYMOUS, -1, 0);
        if (memory == MAP_FAILED)
            return 0;
        rooms[i].page = (uint8_t *)memory + PAGE;
        if (mprotect(rooms[i].page, PAGE, PROT_READ | PROT_WRITE) != 0)
            return 0;
    }
    return 1;
}

uint8_t *lend_room(enum room room, struct lent *lent)
{
    rooms[room].at_end = (int)below(2);
    if (rooms[room].at_end) {
        rooms[room].octets = rooms[room].page + PAGE - lent->size;
        memcpy(rooms[room].octets - LENT_CANARY, lent->octets, LENT_CANARY + lent->size);
    } else {
        rooms[room].octets = rooms[room].page;
        memcpy(rooms[room].octets, lent_octets(lent), lent->size + LENT_CANARY);
    }
    return rooms[room].octets;
}

int room_back(enum room room, struct lent *lent, size_t written)
{
    if (rooms[room].at_end)
        memcpy(lent->octets, rooms[room].octets - LENT_CANARY, LENT_CANARY + lent->size);
    else
        memcpy(lent_octets(lent), rooms[room].octets, lent->size + LENT_CANARY);
    return written <= lent->size && came_back(lent, written);
}
