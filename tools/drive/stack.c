/* How deep the stack goes in a call: it runs in a thread of its own, on a stack that was painted before. What is handed over by value counts,
   since it lies there too. No call may go deeper than the header says. */
#define _POSIX_C_SOURCE 200809L
#include <pthread.h>
#include <stdalign.h>
#include <stdio.h>
#include <string.h>
#include "drive.h"

#define ROOM (256 * 1024)
#define PAINT 0xA5

alignas(4096) static uint8_t room[ROOM];
static uint8_t *top;

/* What the calls take and answer stands outside the stack. */
static struct occasion occasion;
static struct sconcetoad_end end;
static uint8_t component[SCONCETOAD_OUTPUT], out[SCONCETOAD_LISTING];
static size_t size;
static const uint8_t call[SCONCETOAD_CALL] = {0, SCONCETOAD_SPEECH, SCONCETOAD_BUSY};
static const struct sconcetoad_request request = {SCONCETOAD_CFB, SCONCETOAD_SPEECH, {1, {0, 0, 0, {0}}}, {{{0, 0, 5, "24680"}, 0, {0}}, 0}};
static struct sconcetoad_arrival arrival;
static struct sconcetoad_sending sending;
static struct sconcetoad_moving moving;
static struct sconcetoad_page page;
static struct sconcetoad_page_entry entry;
static struct sconcetoad_diversion diversion;
static struct sconcetoad_handed_on original;
static struct sconcetoad_octets octets;
static struct sconcetoad_sheet_taken taken;
static struct sconcetoad_said said;
static struct sconcetoad_replied replied;

static void arrive(void)
{
    arrival = sconcetoad_arrive(occasion.table, occasion.access, sizeof occasion.access, occasion.component, occasion.size, out,
                                SCONCETOAD_OUTPUT);
}

static void activate(void)
{
    sending = sconcetoad_activate(end, occasion.access, sizeof occasion.access, request, component, sizeof component);
}

static void interrogate(void)
{
    sending = sconcetoad_interrogate(end, occasion.access, sizeof occasion.access, SCONCETOAD_CFB, component, sizeof component);
}

static void take(void)
{
    moving.refusal = sconcetoad_arrived(&moving.end, occasion.access, sizeof occasion.access, component, size);
}

static void give_up(void) { moving = sconcetoad_give_up(end, occasion.access, sizeof occasion.access); }
static void show(void) { page = sconcetoad_shown(end, occasion.access, sizeof occasion.access, SCONCETOAD_CFB); }
static void show_entry(void) { entry = sconcetoad_entry(end, occasion.access, sizeof occasion.access, SCONCETOAD_CFB, 7); }
static void divert(void) { diversion = sconcetoad_divert(occasion.table, occasion.access, sizeof occasion.access, call, sizeof call); }

static void hand_on(void)
{
    original = sconcetoad_original(occasion.table, occasion.access, sizeof occasion.access, call, sizeof call, out, sizeof out);
}

static void write_sheet(void)
{
    octets = sconcetoad_write_sheet(occasion.table, occasion.access, sizeof occasion.access, out, sizeof out);
}

static void read_sheet(void) { taken = sconcetoad_read_sheet(occasion.access, sizeof occasion.access, component, size); }
static void list_sheet(void) { octets = sconcetoad_list_sheet(component, size, out, sizeof out); }
static void hear(void) { said = sconcetoad_said(activation, ACTIVATION_SIZE); }
static void put_request(void) { octets = sconcetoad_put_request(out, sizeof out, 1, SCONCETOAD_ACTIVATION, request); }
static void read_reply(void) { replied = sconcetoad_reply(component, size, 1, SCONCETOAD_INTERROGATION); }
static void put_list(void) { octets = sconcetoad_put_list(out, sizeof out, 1, replied.list); }

static void (*called)(void);

static void *begin(void *unused)
{
    uint8_t here;
    top = &here;
    called();
    return unused;
}

/* What was asked for an arrival, docs/ARCHITECTURE.md; the header promises SCONCETOAD_STACK for every call. */
#define ARRIVAL_MOST 10000

/* Prints how deep a call goes; answers whether that is more than `most`. */
static int measured_within(size_t most, const char *name, void (*one)(void))
{
    pthread_attr_t attributes;
    pthread_t thread;
    memset(room, PAINT, sizeof room);
    called = one;
    if (pthread_attr_init(&attributes) || pthread_attr_setstack(&attributes, room, sizeof room) ||
        pthread_create(&thread, &attributes, begin, NULL) || pthread_join(thread, NULL)) {
        fprintf(stderr, "drive: no thread could be started\n");
        return 1;
    }
    uint8_t *deepest = room;
    while (*deepest == PAINT)
        deepest++;
    size_t deep = (size_t)(top - deepest);
    printf("%s %zu%s\n", name, deep, deep > most ? ", OVER" : "");
    return deep > most;
}

static int measured(const char *name, void (*one)(void)) { return measured_within(SCONCETOAD_STACK, name, one); }

static int arrivals(void)
{
    int over = 0;
    for (size_t n = 0; occasion_numbered(n, &occasion); n++) {
        over |= measured_within(ARRIVAL_MOST, occasion.name, arrive);
        if (arrival.refusal != SCONCETOAD_ANSWERED || arrival.count != occasion.reply) {
            fprintf(stderr, "drive: %s gives %zu octets\n", occasion.name, arrival.count);
            return 1;
        }
    }
    return over;
}

/* The end's calls with a full picture, the last of them the list of eight that arrives. */
static int desk_calls(void)
{
    end = sconcetoad_fresh_end();
    end.picture = occasion.table.run;
    int over = measured("send", activate) | measured("give-up", give_up) | measured("shown", show) | measured("entry", show_entry);
    over |= measured("interrogate", interrogate);
    moving.end = sending.end;
    arrival = sconcetoad_arrive(occasion.table, occasion.access, sizeof occasion.access, component, sending.count, out, SCONCETOAD_OUTPUT);
    memcpy(component, out, size = arrival.count);
    over |= measured("arrived-list", take) | measured("reply", read_reply) | measured("put-list", put_list);
    return over || moving.end.outstanding || replied.kind != SCONCETOAD_REPLY_LISTED;
}

static int other_calls(void)
{
    int over = measured("divert", divert) | measured("original", hand_on) | measured("said", hear) | measured("put-request", put_request);
    over |= measured("write-sheet", write_sheet);
    memcpy(component, out, size = octets.count);
    return over | measured("read-sheet", read_sheet) | measured("list-sheet", list_sheet);
}

int stack(void)
{
    int over = arrivals();
    if (!occasion_named("arrive-activation-full", &occasion))
        return 1;
    occasion.table.last = 0;
    return over | desk_calls() | other_calls();
}
