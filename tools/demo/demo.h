/* The parts of the demo: a day of a wholesaler's access. Whatever is printed of octets, replies, marks, calls and sheets the library works out
   while the demo runs; the demo itself says only what the octets of its own requests, and of the replies to them, are called. */
#ifndef DEMO_H
#define DEMO_H

#include <stddef.h>
#include <stdint.h>
#include "../../include/sconcetoad.h"

struct octets {
    uint8_t at[SCONCETOAD_SHEET];
    size_t count;
};

/* Ends the demo with 1 where the library does not do what the story needs. */
void must(int holds, const char *what);

/* ---- office.c: the desk's end and the exchange, both through the border */

/* The profile, as `./sconcetoad profile` takes it. */
extern const char wholesaler[];

void office_opens(void);

/* Each is what the end sends: to forward calls of speech for all numbers to these digits, to do so no more, and to ask. */
struct octets desk_registers(uint8_t procedure, const char *digits);
struct octets desk_cancels(uint8_t procedure);
struct octets desk_asks(uint8_t procedure);

/* The number of the refusal that the end has for one who asks. */
int desk_refuses(uint8_t procedure);

void desk_takes(const struct octets *reply);
void desk_gives_up(void);
struct sconcetoad_page desk_page(uint8_t procedure);
struct sconcetoad_entry desk_entry(uint8_t procedure, size_t place);

struct octets exchange_answers(const struct octets *component);
struct sconcetoad_diversion exchange_diverts(const uint8_t *call);
struct octets exchange_sheet(void);

/* ---- fields.c: octets with their names */

/* Each names the fields of such a component, and prints them: a line for each, as deep as it stands. */
void tell_registration(const struct octets *component);
void tell_result(const struct octets *component);
void tell_list_of_one(const struct octets *component);
void tell_sheet_of_one(const struct octets *sheet);

/* In a line by themselves. */
void tell_octets(const char *what, const struct octets *octets);

/* ---- calls.c, page.c */

/* What becomes of calls for the wholesaler, and what their callers are told. */
void tell_calls(void);

/* The three procedures with their marks. */
void tell_page(void);

const char *procedure_name(int procedure);

#endif
