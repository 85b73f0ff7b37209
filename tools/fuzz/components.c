/* Components, most of them as clause 7.1 has them. */
#include <string.h>
#include "fuzz.h"

struct made {
    uint8_t *octets;
    size_t count;
};

static void put_octet(struct made *made, uint8_t octet)
{
    made->octets[made->count++] = octet;
}

/* An element: its contents are what is put between the two. Its length may be longer than it need be. */
static size_t begin(struct made *made, uint8_t tag)
{
    put_octet(made, tag);
    return made->count;
}

static void finish(struct made *made, size_t from)
{
    size_t length = made->count - from;
    size_t more = length > 255 ? 2 : length > 127 ? 1 : one_in(16) ? below(3) : 0;
    memmove(made->octets + from + 1 + more, made->octets + from, length);
    if (more > 0)
        made->octets[from] = (uint8_t)(0x80 + more);
    for (size_t i = more; i > 0; i--, length /= 256)
        made->octets[from + i] = (uint8_t)(length % 256);
    if (more == 0)
        made->octets[from] = (uint8_t)length;
    made->count += 1 + more;
}

static void put_element(struct made *made, uint8_t tag, const uint8_t *octets, size_t count)
{
    size_t from = begin(made, tag);
    memcpy(made->octets + made->count, octets, count);
    made->count += count;
    finish(made, from);
}

static void put_code(struct made *made, uint8_t tag, uint8_t code)
{
    put_element(made, tag, &code, 1);
}

static void put_identifier(struct made *made, int identifier)
{
    uint8_t octets[2] = {(uint8_t)((unsigned)identifier >> 8), (uint8_t)identifier};
    int one = identifier >= -128 && identifier < 128 && !one_in(64);
    put_element(made, 0x02, octets + one, (size_t)(2 - one));
}

static void put_number(struct made *made, const struct sconcetoad_number *number)
{
    static const uint8_t others[] = {0x82, 0x83, 0x84, 0xA5, 0x88};
    if (number->form == 0) {
        put_element(made, 0x80, number->digits, number->count);
    } else if (number->form == 2) {
        size_t count = below(sizeof number->digits);
        put_element(made, others[below(sizeof others)], number->digits, count);
    } else {
        size_t from = begin(made, 0xA1);
        put_code(made, 0x0A, number->kind);
        put_element(made, 0x12, number->digits, number->count);
        finish(made, from);
    }
}

static void put_address(struct made *made, const struct sconcetoad_forwarded *to)
{
    size_t from = begin(made, 0x30);
    put_number(made, &to->address.number);
    if (to->user)
        put_element(made, 0x30, to->address.sub, to->address.subcount);
    else if (to->address.subcount > 0)
        put_element(made, 0x04, to->address.sub, to->address.subcount);
    finish(made, from);
}

/* Elements with a private tag, one in the other, to a depth that may be one too many. */
static void put_private(struct made *made)
{
    size_t from[9];
    unsigned depth = one_in(3) ? 8 + below(2) : 1 + below(3);
    for (unsigned i = 0; i < depth; i++)
        from[i] = begin(made, i + 1 < depth ? 0xE0 : 0xC0);
    for (unsigned octets = one_in(8) ? below(1000) : below(4); octets > 0; octets--)
        put_octet(made, (uint8_t)below(256));
    while (depth-- > 0)
        finish(made, from[depth]);
}

static uint8_t make_service(void)
{
    if (one_in(3))
        return 0;
    if (one_in(40))
        return (uint8_t)below(256);
    return one_in(8) ? service_codes[below(sizeof service_codes)] : service_of_profile();
}

static struct sconcetoad_forwarded make_forwarded(void)
{
    struct sconcetoad_forwarded to;
    const uint8_t *prefix = world.profile + ACCESS_PREFIXES;
    memset(&to, 0, sizeof to);
    to.address = make_address();
    if (one_in(10))
        to.address.number = number_of_profile();
    else if (world.profile[ACCESS_PREFIXCOUNT] > 0 && one_in(6) && to.address.number.count >= prefix[0])
        memcpy(to.address.number.digits, prefix + 1, prefix[0]);
    else if (one_in(20))
        to.address.number.form = 2;
    to.user = one_in(20);
    return to;
}

struct sconcetoad_request make_request(void)
{
    struct sconcetoad_request request;
    memset(&request, 0, sizeof request);
    request.procedure = (uint8_t)(one_in(40) ? below(256) : below(3));
    request.service = make_service();
    request.served.all = one_in(2);
    request.served.number = one_in(10) ? make_number() : number_of_profile();
    if (one_in(30))
        request.served.number.form = 2;
    request.to = make_forwarded();
    return request;
}

static int make_identifier(void)
{
    if (one_in(20))
        return (int)below(65536) - 32768;
    return one_in(12) ? world.held.last : world.held.last + 1 + (int)below(3);
}

static void put_argument(struct made *made, int operation)
{
    struct sconcetoad_request request = make_request();
    size_t from = begin(made, 0x30);
    put_code(made, 0x0A, request.procedure);
    if (operation != 11 || !one_in(6))
        put_code(made, 0x0A, request.service);
    if (operation == 7)
        put_address(made, &request.to);
    if (request.served.all)
        put_element(made, 0x05, request.to.address.sub, 0); /* NULL */
    else
        put_number(made, &request.served.number);
    if (one_in(8))
        put_private(made);
    finish(made, from);
}

size_t make_component(uint8_t *octets)
{
    static const uint8_t operations[] = {7, 7, 7, 8, 8, 11};
    struct made made = {octets, 0};
    int operation = one_in(30) ? (int)below(600) - 300 : operations[below(sizeof operations)];
    size_t from = begin(&made, (uint8_t)(one_in(24) ? 0xA0 + below(8) : 0xA1));
    put_identifier(&made, make_identifier());
    if (one_in(60))
        put_code(&made, 0x80, 1);
    put_identifier(&made, operation);
    put_argument(&made, operation);
    finish(&made, from);
    return made.count;
}

struct sconcetoad_entries make_entries(uint8_t procedure)
{
    struct sconcetoad_run run = make_run();
    struct sconcetoad_entries list;
    memset(&list, 0, sizeof list);
    for (int i = 0; i < run.count; i++)
        if (run.run[i].procedure == procedure) {
            struct sconcetoad_entry *entry = &list.entries[list.count++];
            memcpy(&entry->served, world.profile + ACCESS_NUMBERS + NUMBER_SIZE * run.run[i].number, NUMBER_SIZE);
            entry->service = run.run[i].service;
            entry->procedure = procedure;
            entry->address = run.run[i].address;
        }
    return list;
}

size_t make_reply(uint8_t *octets)
{
    struct made made = {octets, 0};
    int identifier = one_in(8) ? (int)below(65536) - 32768 : world.end.used;
    unsigned what = below(8);
    if (what < 3)
        return sconcetoad_put_list(octets, LENT_MOST, (int16_t)identifier, make_entries((uint8_t)below(3))).count;
    size_t from = begin(&made, what < 5 ? 0xA2 : what < 7 ? 0xA3 : 0xA4);
    put_identifier(&made, identifier);
    if (what == 5 || what == 6)
        put_identifier(&made, (int)below(60));
    if (what == 7)
        put_code(&made, (uint8_t)(one_in(2) ? 0x80 : 0x81), 0);
    finish(&made, from);
    return made.count;
}
