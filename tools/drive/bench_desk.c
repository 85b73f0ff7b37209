/* One turn of each thing that the customer end does, at the widest profile, with an empty picture, one of a procedure's eight instances, or one of 24. */
#include <stdio.h>
#include <string.h>
#include "drive.h"

static struct occasion occasion;
static struct sconcetoad_end end;
static uint8_t component[SCONCETOAD_OUTPUT];
static size_t size;

/* The activation sample's request. */
static const struct sconcetoad_request request = {1, 1, {1, {0, 0, 0, {0}}}, {{{0, 0, 5, "24680"}, 0, {0}}, 0}};

static void sent(struct sconcetoad_sending sending)
{
    end = sending.end;
    size = sending.count;
}

/* The exchange's reply to what the end has sent becomes the component. */
static void answered(void)
{
    uint8_t reply[SCONCETOAD_OUTPUT];
    struct sconcetoad_arrival arrival =
        sconcetoad_arrive(occasion.table, occasion.access, sizeof occasion.access, component, size, reply, sizeof reply);
    memcpy(component, reply, arrival.count);
    size = arrival.count;
}

static int bench_send(long turns)
{
    for (long i = 0; i < turns; i++)
        if (sconcetoad_activate(end, occasion.access, sizeof occasion.access, request, component, sizeof component).count != ACTIVATION_SIZE)
            return 1;
    return 0;
}

static int bench_arrived(long turns)
{
    for (long i = 0; i < turns; i++) {
        struct sconcetoad_end standing = end;
        if (sconcetoad_arrived(&standing, occasion.access, sizeof occasion.access, component, size) || standing.outstanding)
            return 1;
    }
    return 0;
}

static int bench_shown(long turns)
{
    for (long i = 0; i < turns; i++)
        if (sconcetoad_shown(end, occasion.access, sizeof occasion.access, 1).mark != SCONCETOAD_KNOWN)
            return 1;
    return 0;
}

int bench_desk(const char *what, long turns)
{
    int empty = strstr(what, "-empty") != NULL;
    int eight = strstr(what, "-eight") != NULL;
    if (!occasion_named(eight ? "arrive-interrogation-eight" : "arrive-activation-full", &occasion))
        return 2;
    occasion.table.last = 0;
    end = sconcetoad_fresh_end();
    if (!empty)
        end.picture = occasion.table.run;
    if (strncmp(what, "send-", 5) == 0)
        return bench_send(turns);
    if (strncmp(what, "shown-", 6) == 0)
        return bench_shown(turns);
    if (strncmp(what, "taken-list-", 11) == 0)
        sent(sconcetoad_interrogate(end, occasion.access, sizeof occasion.access, 1, component, sizeof component));
    else if (strncmp(what, "taken-result-", 13) == 0)
        sent(sconcetoad_activate(end, occasion.access, sizeof occasion.access, request, component, sizeof component));
    else
        return 2;
    answered();
    return bench_arrived(turns);
}
