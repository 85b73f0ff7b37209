/* An exchange for several accesses: desks talk to it over a Unix socket, and it keeps each access's table in a SQLite file.
     exchange FILE SOCKET
   It lists every table as it found it, says that it listens, and serves until it is ended. */
#define _POSIX_C_SOURCE 200809L
#include <poll.h>
#include <stdio.h>
#include <string.h>
#include <unistd.h>
#include "path.h"
#include "store.h"

/* The most desks at a time; another waits until one has gone. */
#define DESKS 16

/* A desk's first packet is the name of its access; until then the name is empty. */
struct desk {
    int path;
    char name[ACCESS_NAME_MOST + 1];
};

static int refused(const char *name, const char *what, int refusal)
{
    fprintf(stderr, "exchange: %s: %s is refused: %d\n", name, what, refusal);
    return 0;
}

/* What is answered is kept first: whoever has an answer finds it in the table, whenever this program is killed. Silence answers nothing. */
static int answer(sqlite3 *store, const struct desk *desk, const uint8_t *component, size_t length)
{
    struct row row;
    uint8_t out[SCONCETOAD_OUTPUT];
    if (!store_begin(store) || !store_read(store, desk->name, &row))
        return 0;
    struct sconcetoad_arrival arrival =
        sconcetoad_arrive(row.table, row.access, sizeof row.access, component, length, out, sizeof out);
    if (arrival.refusal != SCONCETOAD_ANSWERED)
        return refused(desk->name, "a component", arrival.refusal);
    row.table = arrival.table;
    int good = store_write(store, &row);
    good = good && store_commit(store);
    good = good && (arrival.count == 0 || path_send(desk->path, out, arrival.count));
    return good;
}

static int take_name(sqlite3 *store, struct desk *desk, const uint8_t *name, size_t length)
{
    struct row row;
    char text[ACCESS_NAME_MOST + 1] = "";
    if (length > ACCESS_NAME_MOST)
        return 0;
    memcpy(text, name, length);
    if (!store_read(store, text, &row))
        return 0;
    memcpy(desk->name, text, sizeof text);
    return 1;
}

/* Obeys the packet that has come from a desk. Answers 0 where the desk is to be left: it has gone, or could not be served. */
static int obey(sqlite3 *store, struct desk *desk)
{
    uint8_t packet[SCONCETOAD_COMPONENT + 1]; /* one octet more than the longest, so that one that is longer is refused */
    size_t length = path_receive(desk->path, packet, sizeof packet);
    if (length == 0)
        return 0;
    int good = desk->name[0] ? answer(store, desk, packet, length) : take_name(store, desk, packet, length);
    store_drop(store);
    return good;
}

static size_t admit(int listening, struct desk *desks, size_t count)
{
    int path = path_accept(listening);
    if (path < 0)
        return count;
    desks[count].path = path;
    desks[count].name[0] = '\0';
    return count + 1;
}

static int serve(sqlite3 *store, int listening)
{
    struct desk desks[DESKS];
    struct pollfd waits[DESKS + 1];
    size_t count = 0;
    for (;;) {
        for (size_t i = 0; i < count + 1; i++) {
            waits[i].fd = i < count ? desks[i].path : count < DESKS ? listening : -1;
            waits[i].events = POLLIN;
            waits[i].revents = 0;
        }
        if (poll(waits, count + 1, -1) < 0) {
            perror("exchange: poll");
            return 1;
        }
        int calls = waits[count].revents != 0;
        for (size_t i = count; i-- > 0;)
            if (waits[i].revents && !obey(store, &desks[i])) {
                close(desks[i].path);
                desks[i] = desks[--count];
            }
        if (calls)
            count = admit(listening, desks, count);
    }
}

/* Prints the listing of a row's table, by way of its night sheet. */
static int list(const struct row *row)
{
    uint8_t sheet[SCONCETOAD_SHEET], listing[SCONCETOAD_LISTING];
    struct sconcetoad_octets written =
        sconcetoad_write_sheet(row->table, row->access, sizeof row->access, sheet, sizeof sheet);
    if (written.refusal != SCONCETOAD_ANSWERED)
        return refused(row->name, "the table", written.refusal);
    struct sconcetoad_octets listed = sconcetoad_list_sheet(sheet, written.count, listing, sizeof listing);
    if (listed.refusal != SCONCETOAD_ANSWERED)
        return refused(row->name, "the night sheet", listed.refusal);
    printf("%s %.*s", row->name, (int)listed.count, (const char *)listing);
    return 1;
}

/* Every access has a row, from the start on with a fresh table. */
static int add_accesses(sqlite3 *store)
{
    struct row row;
    row.table = sconcetoad_fresh_table();
    for (size_t place = 0; access_name(place); place++) {
        snprintf(row.name, sizeof row.name, "%s", access_name(place));
        if (!access_named(row.name, row.access) || !store_add(store, &row))
            return 0;
    }
    return 1;
}

int main(int count, char **words)
{
    sqlite3 *store;
    if (count != 3) {
        fprintf(stderr, "usage: exchange FILE SOCKET\n");
        return 2;
    }
    if (!store_open(words[1], &store) || !store_begin(store) || !add_accesses(store) || !store_commit(store))
        return 1;
    if (!store_each(store, list))
        return 1;
    int listening = path_listen(words[2]);
    if (listening < 0)
        return 1;
    puts("listening");
    fflush(stdout);
    return serve(store, listening);
}
