/* What is lent to the library, between canaries. */
#include <assert.h>
#include <stdio.h>
#include <string.h>
#include "drive.h"

/* How many things were lent since the start; the canaries of those that came back since they were last said; and whether they are to be. */
static unsigned things;
static char seen[LENT_A_LINE * (1 + 2 * 2 * LENT_CANARY)];
static size_t seen_length;
static int asked;

uint8_t *lent_octets(struct lent *lent)
{
    return lent->octets + LENT_CANARY;
}

static uint8_t *after(struct lent *lent)
{
    return lent_octets(lent) + lent->size;
}

void lend_anew(void)
{
    things = 0;
}

void lend(struct lent *lent)
{
    things++;
    for (unsigned i = 0; i < LENT_CANARY; i++) {
        lent->octets[i] = (uint8_t)(things + i);
        after(lent)[i] = (uint8_t)(things + LENT_CANARY + i);
    }
    memcpy(lent->before, lent->octets, LENT_CANARY + lent->size + LENT_CANARY);
}

void lend_filled(struct lent *lent)
{
    for (size_t i = 0; i < lent->size; i++)
        lent_octets(lent)[i] = (uint8_t)(things * 37 + i * 11 + 0x5A);
    lend(lent);
}

static void note_canaries(struct lent *lent)
{
    char *at = seen + seen_length;
    assert(seen_length < sizeof seen);
    *at++ = ' ';
    at = octets_to(at, lent->octets, LENT_CANARY);
    at = octets_to(at, after(lent), LENT_CANARY);
    seen_length = (size_t)(at - seen);
}

int came_back(struct lent *lent, size_t from)
{
    size_t rest = LENT_CANARY + from;
    note_canaries(lent);
    return memcmp(lent->octets, lent->before, LENT_CANARY) == 0 &&
           memcmp(lent->octets + rest, lent->before + rest, lent->size - from + LENT_CANARY) == 0;
}

void ask_canaries(void)
{
    asked = 1;
}

int say_canaries(void)
{
    int count = asked ? printf("canaries%.*s\n", (int)seen_length, seen) : 0;
    seen_length = 0;
    return count < 0;
}
