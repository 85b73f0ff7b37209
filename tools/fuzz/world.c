/* What there is: a profile, a table and an end, and what is at hand for one call. */
#include <stdio.h>
#include <stdlib.h>
#include <string.h>
#include "fuzz.h"

struct world world;

static const char *line;
static int in_dialogue;

static struct sconcetoad_end make_end(void)
{
    struct sconcetoad_end end = sconcetoad_fresh_end();
    end.used = (uint16_t)(one_in(16) ? 32767 : below(400));
    for (int i = 0; i < 3; i++)
        end.marks[i] = !one_in(4);
    end.picture = make_run();
    return end;
}

void make_world(void)
{
    make_access(world.profile);
    world.held = sconcetoad_fresh_table();
    world.held.last = (uint16_t)(one_in(16) ? 32767 : below(400));
    world.held.run = make_run();
    world.kept = make_end();
}

/* Something else than there is, in one of so many calls. */
#define ODD 12

void take_access(void)
{
    size_t count = SCONCETOAD_ACCESS;
    memcpy(lent_octets(&world.access), world.profile, count);
    world.as_it_was = !one_in(ODD);
    if (!world.as_it_was && one_in(4))
        mutate(lent_octets(&world.access), &count, 512);
    else if (!world.as_it_was)
        mutate_record(lent_octets(&world.access), count);
    world.access.size = count;
}

void take_table(void)
{
    world.table = world.held;
    if (one_in(ODD))
        mutate_record(&world.table, sizeof world.table);
}

void take_end(void)
{
    world.end = world.kept;
    if (one_in(ODD))
        mutate_record(&world.end, sizeof world.end);
}

void take_out(size_t least)
{
    world.out.size = one_in(ODD) ? below((unsigned)least) : least + (one_in(2) ? 0 : below(64));
}

void take_component(size_t (*make)(uint8_t *octets))
{
    size_t count = make(lent_octets(&world.given));
    if (one_in(24)) {
        count = below(one_in(4) ? 1100 : 40);
        for (size_t i = 0; i < count; i++)
            lent_octets(&world.given)[i] = (uint8_t)below(256);
    } else if (one_in(3)) {
        mutate(lent_octets(&world.given), &count, LENT_MOST);
    }
    world.given.size = count < 1100 ? count : 1100; /* no more than a line of a dialogue has */
}

void at_hand(const char *begins)
{
    line = begins;
    in_dialogue = 1;
}

void case_at_hand(const char *begins)
{
    line = begins;
    in_dialogue = 0;
}

static void print_octets(const char *word, const uint8_t *octets, size_t count)
{
    static char text[2 * LENT_MOST + 1];
    printf("%s %.*s\n", word, (int)(octets_to(text, octets, count) - text), text);
}

/* All that there is: what the call does not look at, does not matter. */
static void print_world(void)
{
    static uint8_t octets[END_MOST];
    puts("start");
    print_octets("access", lent_octets(&world.access), world.access.size);
    print_octets("table", octets, table_to(octets, &world.table));
    print_octets("end", octets, end_to(octets, &world.end));
    printf("output %zu\n", world.out.size);
}

static int begins_with(const char *words)
{
    return strcmp(line, words) == 0;
}

static void print_lines(void)
{
    if (in_dialogue)
        print_world();
    if (begins_with("write") || begins_with("give-up"))
        puts(line);
    else if (begins_with("send 11") || begins_with("shown"))
        printf("%s %d\n", line, world.request.procedure);
    else if (begins_with("send 7") || begins_with("send 8"))
        print_octets(line, (const uint8_t *)&world.request, sizeof world.request);
    else
        print_octets(line, lent_octets(&world.given), world.given.size);
}

void breach(const char *what)
{
    printf("fuzz: case %lu of seed %lu: %s\n", world.number, world.seed, what);
    print_lines();
    fflush(stdout);
    _Exit(1);
}

void must(int holds, const char *otherwise)
{
    if (!holds)
        breach(otherwise);
}
