/* The border to C of the proved library. The library, for x86-64, is built and linked by
     ./sconcetoad library
     cc -I include -o program program.c lib/libsconcetoad.a
   and examples/ has programs that use it; nothing deletes lib/libsconcetoad.a.

   A pointer must be valid for the length that goes with it, and what is lent must not overlap; where the length is 0 the pointer is not
   followed, and NULL will do. Nothing is kept after a call, nothing is allocated, and no call that was measured takes more than SCONCETOAD_STACK
   octets of stack. docs/RECORDS.md has every record octet by octet.

   A function that can refuse tells the refusal's number first: 0 where nothing is refused, and else the lowest that applies. A refusal writes
   no octet of the output; what stands beside a refusal is said at each function. */
#ifndef SCONCETOAD_H
#define SCONCETOAD_H

#include <stddef.h>
#include <stdint.h>

#ifdef __cplusplus
extern "C" {
#endif

/* No call that was measured (`./sconcetoad stack`) takes more octets of stack than this, with what it is handed over by value. */
#define SCONCETOAD_STACK 12000

/* ---- document 01's numbers */

/* Procedures. */
enum {
    SCONCETOAD_CFU = 0,
    SCONCETOAD_CFB = 1,
    SCONCETOAD_CFNR = 2
};

/* Operations. */
enum {
    SCONCETOAD_ACTIVATION = 7,
    SCONCETOAD_DEACTIVATION = 8,
    SCONCETOAD_INTERROGATION = 11
};

/* The service that stands for all, and the first of the sixteen. */
enum {
    SCONCETOAD_ALL_SERVICES = 0,
    SCONCETOAD_SPEECH = 1
};

/* Forms of a number; in a request, and as the served number of an entry that sconcetoad_reply reads, it may be another kind. */
enum {
    SCONCETOAD_UNKNOWN = 0,
    SCONCETOAD_PUBLIC = 1,
    SCONCETOAD_OTHER_KIND = 2
};

/* What a call met. */
enum {
    SCONCETOAD_OFFERED = 0,
    SCONCETOAD_BUSY = 1,
    SCONCETOAD_NO_REPLY = 2
};

/* Why a call is diverted. */
enum {
    SCONCETOAD_NOT_DIVERTED = 0,
    SCONCETOAD_REASON_CFU = 1,
    SCONCETOAD_REASON_CFB = 2,
    SCONCETOAD_REASON_CFNR = 3
};

/* What the caller is told: nothing, that the call is diverting, or to which number too. */
enum {
    SCONCETOAD_NOTICE_NONE = 0,
    SCONCETOAD_NOTICE_DIVERTING = 1,
    SCONCETOAD_NOTICE_NUMBER = 2
};

/* The errors that the exchange answers. */
enum {
    SCONCETOAD_ERROR_NOT_SUBSCRIBED = 0,
    SCONCETOAD_ERROR_NOT_IN_USE = 3,
    SCONCETOAD_ERROR_SERVED_NUMBER = 6,
    SCONCETOAD_ERROR_SERVICE = 8,
    SCONCETOAD_ERROR_RESOURCE = 11,       /* a user-specified subaddress, or more than 8 instances of the procedure */
    SCONCETOAD_ERROR_NUMBER = 12,         /* a number of another kind, or international with more than 15 digits */
    SCONCETOAD_ERROR_SPECIAL_NUMBER = 14,
    SCONCETOAD_ERROR_OWN_NUMBER = 15,
    SCONCETOAD_ERROR_NOT_ACTIVE = 46
};

/* ---- numbers and requests */

/* A number: its form; a public number's type; and `count` digits as characters. */
struct sconcetoad_number {
    uint8_t form;
    uint8_t kind;
    uint8_t count;
    uint8_t digits[20];
};

struct sconcetoad_address {
    struct sconcetoad_number number;
    uint8_t subcount;
    uint8_t sub[20];
};

/* `user` is 1 where the subaddress is a user-specified one, which is not kept. */
struct sconcetoad_forwarded {
    struct sconcetoad_address address;
    uint8_t user;
};

/* `all` is 1 for all numbers of the access. */
struct sconcetoad_served {
    uint8_t all;
    struct sconcetoad_number number;
};

struct sconcetoad_request {
    uint8_t procedure;
    uint8_t service;
    struct sconcetoad_served served;
    struct sconcetoad_forwarded to;
};

/* The row of document 01's table of replies at which the reading of a component stops. */
enum {
    SCONCETOAD_ROW_NOT_ONE = 1,       /* not one element filling the input */
    SCONCETOAD_ROW_REPLY = 2,         /* outer tag A2, A3, A4 */
    SCONCETOAD_ROW_OTHER_TAG = 3,
    SCONCETOAD_ROW_NO_IDENTIFIER = 4,
    SCONCETOAD_ROW_NO_OPERATION = 5,  /* its identifier is told */
    SCONCETOAD_ROW_ASKS = 6           /* none of these: identifier and operation are told */
};

/* What a component says. `asks` is 1 where it is a request that can be read, and then `request` is that; else `request` is all zeros. Identifier and
   operation are 0 where they were not read. */
struct sconcetoad_said {
    uint8_t row;
    uint8_t asks;
    int16_t identifier;
    int16_t operation;
    struct sconcetoad_request request;
};

/* Reads any octets; refuses and alters nothing. */
struct sconcetoad_said sconcetoad_said(const uint8_t *component, size_t length);

/* An active instance as a list tells it. */
struct sconcetoad_entry {
    struct sconcetoad_number served;
    uint8_t service;
    uint8_t procedure;
    struct sconcetoad_address address;
};

/* The most entries of a list: the instances of a procedure. */
#define SCONCETOAD_ENTRIES 8

/* `count` entries; those past the count carry no meaning. */
struct sconcetoad_entries {
    uint8_t count;
    struct sconcetoad_entry entries[SCONCETOAD_ENTRIES];
};

/* What stands for a count where there is none: no list has so many entries, and no procedure so many instances. */
#define SCONCETOAD_NO_COUNT 255

/* Kinds of a reply to the end. */
enum {
    SCONCETOAD_REPLY_DROPPED = 0,  /* no reply to that request: it changes nothing */
    SCONCETOAD_REPLY_WRONG = 1,    /* a reply of the wrong shape */
    SCONCETOAD_REPLY_REJECTED = 2,
    SCONCETOAD_REPLY_FAILED = 3,   /* an error */
    SCONCETOAD_REPLY_DONE = 4,     /* the result of an activation or a deactivation */
    SCONCETOAD_REPLY_LISTED = 5    /* the result of an interrogation */
};

/* What a reply says. Look at `kind` first: `value` is the error's where it is SCONCETOAD_REPLY_FAILED, else 0; `list` holds the entries where
   it is SCONCETOAD_REPLY_LISTED, and else must not be used: its count is SCONCETOAD_NO_COUNT. */
struct sconcetoad_replied {
    uint8_t kind;
    int16_t value;
    struct sconcetoad_entries list;
};

/* What a component says to the end whose request has this identifier and operation. Reads any octets; refuses and alters nothing. */
struct sconcetoad_replied sconcetoad_reply(const uint8_t *component, size_t length, int16_t identifier, uint8_t operation);

/* How many octets were written, 0 for a refusal. */
struct sconcetoad_octets {
    uint8_t refusal;
    size_t count;
};

/* Writes the component of a request at the start of `out`, at most 95 octets. Its refusals are SCONCETOAD_SHORT_OUTPUT and
   SCONCETOAD_BAD_REQUEST. Octets after the component are not altered. */
struct sconcetoad_octets sconcetoad_put_request(uint8_t *out, size_t length, int16_t identifier, uint8_t operation,
                                                struct sconcetoad_request request);

/* Writes the result of an interrogation at the start of `out`, at most SCONCETOAD_OUTPUT octets. Its refusals are SCONCETOAD_SHORT_OUTPUT and
   SCONCETOAD_BAD_TABLE, where the list counts more than SCONCETOAD_ENTRIES. Octets after the result are not altered. */
struct sconcetoad_octets sconcetoad_put_list(uint8_t *out, size_t length, int16_t identifier, struct sconcetoad_entries list);

/* ---- the profile of an access and the exchange's table */

/* The digits of a special prefix. */
struct sconcetoad_prefix {
    uint8_t count;
    uint8_t digits[20];
};

/* The access record: lend it as octets. Flags are 0 or 1; places past a count carry no meaning. */
struct sconcetoad_access {
    uint8_t numbercount;
    struct sconcetoad_number numbers[4];
    uint8_t servicecount;
    uint8_t services[6];
    uint8_t subscribed[3];
    uint8_t msn;
    uint8_t all;
    uint8_t inuse;
    uint8_t counted;
    uint8_t option;
    uint8_t release;
    uint8_t limit;
    uint8_t prefixcount;
    struct sconcetoad_prefix prefixes[16];
};

/* An instance: the procedure (cfu 0, cfb 1, cfnr 2), the served number by its place in the profile, the basic service's code, and the
   forwarded-to address. */
struct sconcetoad_instance {
    uint8_t procedure;
    uint8_t number;
    uint8_t service;
    struct sconcetoad_address address;
};

/* The most instances: SCONCETOAD_ENTRIES of each procedure. */
#define SCONCETOAD_INSTANCES 24

/* `count` instances, strictly ascending by procedure, number and service; those past the count carry no meaning. */
struct sconcetoad_run {
    uint8_t count;
    struct sconcetoad_instance run[SCONCETOAD_INSTANCES];
};

/* The table of an access: the last handled identifier, 0 to 32,767, and the instances. */
#define SCONCETOAD_TABLE 1132

struct sconcetoad_table {
    uint16_t last;
    struct sconcetoad_run run;
};

/* The table of a new access. */
struct sconcetoad_table sconcetoad_fresh_table(void);

/* The octets of an access record, the least output, and the longest component. */
#define SCONCETOAD_ACCESS 447
#define SCONCETOAD_OUTPUT 707
#define SCONCETOAD_COMPONENT 1024

/* The local refusals of an arrival; 0 where the component is answered. The lowest number that applies is told. */
enum {
    SCONCETOAD_ANSWERED = 0,
    SCONCETOAD_SHORT_OUTPUT = 1,   /* the output has fewer octets than SCONCETOAD_OUTPUT */
    SCONCETOAD_LONG_COMPONENT = 2, /* the component has more than SCONCETOAD_COMPONENT */
    SCONCETOAD_BAD_PROFILE = 3,    /* the access record has another size, or breaks a rule */
    SCONCETOAD_BAD_TABLE = 4       /* the table breaks a rule of that profile */
};

/* How many octets the reply has, 0 for silence and for a refusal; and the next table. */
struct sconcetoad_arrival {
    uint8_t refusal;
    size_t count;
    struct sconcetoad_table table;
};

/* A component arrives at the exchange: the reply is written at the start of `out`, and the next table is handed back. The access record,
   the component and the octets of `out` after the reply are not altered. A refusal writes nothing and hands back the same table. */
struct sconcetoad_arrival sconcetoad_arrive(struct sconcetoad_table table, const uint8_t *access, size_t access_length,
                                            const uint8_t *component, size_t component_length, uint8_t *out, size_t out_length);

/* ---- calls */

/* The octets of a call record, and the most digits of an original number. */
#define SCONCETOAD_CALL 28
#define SCONCETOAD_DIGITS 20

/* The call record: lend it as octets. The number is that of the profile by its place, `presentation` that of the original number (1 allowed),
   and an original number of no digits is absent. */
struct sconcetoad_call {
    uint8_t number;
    uint8_t service;
    uint8_t event;
    uint8_t counter;
    uint8_t option;
    uint8_t presentation;
    uint8_t preference;
    uint8_t count;
    uint8_t digits[20];
};

/* The local refusals of a call are SCONCETOAD_BAD_PROFILE, SCONCETOAD_BAD_TABLE and these; the lowest that applies is told. */
enum {
    SCONCETOAD_BAD_CALL = 5,      /* the call record has another size, or breaks a rule */
    SCONCETOAD_LIMIT_REACHED = 6  /* an instance applies, and the counter is not below the diversion limit */
};

/* The call that goes on: the forwarded-to address, the served number with its presentation (1 allowed), the presentation of the
   original number, and the number of the caller's notice, which is all zeros unless the notice is 2. */
struct sconcetoad_onward {
    uint8_t counter;
    struct sconcetoad_address called;
    struct sconcetoad_number redirecting;
    uint8_t redirectingshown;
    uint8_t originalshown;
    uint8_t preference;
    uint8_t option;
    struct sconcetoad_number noticed;
};

/* Where the call is not diverted or refused, `reason` is SCONCETOAD_NOT_DIVERTED, `notice` SCONCETOAD_NOTICE_NONE, and `call` all zeros. */
struct sconcetoad_diversion {
    uint8_t refusal;
    uint8_t reason;
    uint8_t notice;
    struct sconcetoad_onward call;
};

/* What becomes of a call: diverted, not diverted or refused. Alters nothing; the table is a copy. */
struct sconcetoad_diversion sconcetoad_divert(struct sconcetoad_table table, const uint8_t *access, size_t access_length,
                                              const uint8_t *call, size_t call_length);

/* The refusal and the reason as sconcetoad_divert tells them; how many digits the original number has that the call hands on, 0 where none was
   received or no call goes on; and how many were written, all of them or none. */
struct sconcetoad_handed_on {
    uint8_t refusal;
    uint8_t reason;
    size_t length;
    size_t count;
};

/* Copies the digits of the original number that the same call hands on to the start of `out`, at most SCONCETOAD_DIGITS. Where there is no
   room for all of them nothing is written, and `count` is less than `length`. Octets after the digits are not altered. */
struct sconcetoad_handed_on sconcetoad_original(struct sconcetoad_table table, const uint8_t *access, size_t access_length,
                                                const uint8_t *call, size_t call_length, uint8_t *out, size_t out_length);

/* ---- night sheets */

/* The longest night sheet and the longest listing of one: the least output for each. */
#define SCONCETOAD_SHEET 1613
#define SCONCETOAD_LISTING 1811

/* The local refusal of a night sheet that is read or listed, beside those above. */
enum {
    SCONCETOAD_BAD_SHEET = 9 /* the octets are no night sheet; or, where one is read, hold what no table of the profile holds */
};

/* Writes the table as a night sheet at the start of `out`. Its refusals are SCONCETOAD_SHORT_OUTPUT, where the output has fewer octets than
   SCONCETOAD_SHEET, SCONCETOAD_BAD_PROFILE and SCONCETOAD_BAD_TABLE; the lowest that applies is told, and then nothing is written. The
   access record and the octets of `out` after the sheet are not altered. */
struct sconcetoad_octets sconcetoad_write_sheet(struct sconcetoad_table table, const uint8_t *access, size_t access_length,
                                                uint8_t *out, size_t out_length);

/* The table that was read. Look at `refusal` first: where the sheet is refused the table is that of a new access and must not be used. */
struct sconcetoad_sheet_taken {
    uint8_t refusal;
    struct sconcetoad_table table;
};

/* The table that a night sheet of any length holds, by the profile of an access. Its refusals are SCONCETOAD_BAD_PROFILE and
   SCONCETOAD_BAD_SHEET; the lowest that applies is told. Alters nothing. */
struct sconcetoad_sheet_taken sconcetoad_read_sheet(const uint8_t *access, size_t access_length, const uint8_t *sheet,
                                                    size_t sheet_length);

/* Writes the listing of a night sheet of any length at the start of `out`: characters, each line with its newline. Its refusals are
   SCONCETOAD_SHORT_OUTPUT, where the output has fewer octets than SCONCETOAD_LISTING, and SCONCETOAD_BAD_SHEET; the lowest that applies is
   told, and then nothing is written. The sheet and the octets of `out` after the listing are not altered. */
struct sconcetoad_octets sconcetoad_list_sheet(const uint8_t *sheet, size_t sheet_length, uint8_t *out, size_t out_length);

/* ---- the customer end */

/* The customer end: the last used identifier, 0 to 32,767; whether the request with that identifier is `outstanding` (1), and then its
   operation (7, 8 or 11), its procedure's mark from before sending, and the request itself; a mark for each procedure, cfu, cfb, cfnr; and
   the picture of the table's instances. An end is made by sconcetoad_fresh_end and handed from call to call; what arrives changes it where
   it stands. */
struct sconcetoad_end {
    uint16_t used;
    uint8_t outstanding;
    uint8_t operation;
    uint8_t before;
    struct sconcetoad_request request;
    uint8_t marks[3];
    struct sconcetoad_run picture;
};

/* The marks of a procedure. What stands in the picture of a procedure in doubt says nothing about the table. */
enum {
    SCONCETOAD_DOUBT = 0,
    SCONCETOAD_KNOWN = 1
};

/* The local refusals of an end that sends, beside those above. */
enum {
    SCONCETOAD_OUTSTANDING = 7, /* a request is outstanding */
    SCONCETOAD_EXHAUSTED = 8,   /* identifier 32,767 is used */
    SCONCETOAD_BAD_REQUEST = 10 /* a code, number or subaddress that no end may send; or a procedure that is none */
};

/* An end that has sent nothing: all known, empty. */
struct sconcetoad_end sconcetoad_fresh_end(void);

/* How many octets the component has that was written, 0 for a refusal; and the next end. */
struct sconcetoad_sending {
    uint8_t refusal;
    size_t count;
    struct sconcetoad_end end;
};

/* Each sends a request: its component is written at the start of `out`, and the end that waits for the answer is handed back. The refusals are
   SCONCETOAD_SHORT_OUTPUT, SCONCETOAD_BAD_PROFILE, SCONCETOAD_BAD_TABLE (the end breaks a rule), SCONCETOAD_OUTSTANDING, SCONCETOAD_EXHAUSTED
   and SCONCETOAD_BAD_REQUEST; the lowest that applies is told, and then nothing is written and the same end is handed back. The access record
   and the octets of `out` after the component are not altered. A deactivation's request has no forwarded-to address: `to` is not looked
   at. An interrogation is always of all services and all numbers. */
struct sconcetoad_sending sconcetoad_activate(struct sconcetoad_end end, const uint8_t *access, size_t access_length,
                                              struct sconcetoad_request request, uint8_t *out, size_t out_length);
struct sconcetoad_sending sconcetoad_deactivate(struct sconcetoad_end end, const uint8_t *access, size_t access_length,
                                                struct sconcetoad_request request, uint8_t *out, size_t out_length);
struct sconcetoad_sending sconcetoad_interrogate(struct sconcetoad_end end, const uint8_t *access, size_t access_length,
                                                 uint8_t procedure, uint8_t *out, size_t out_length);

/* A component arrives at the end that is lent: the next end stands there afterwards, and the number of the refusal is answered, SCONCETOAD_ANSWERED
   where there is none. The refusals are SCONCETOAD_LONG_COMPONENT, SCONCETOAD_BAD_PROFILE and SCONCETOAD_BAD_TABLE; the lowest that applies is told,
   and then the same end stands there. The access record and the component are not altered. */
uint8_t sconcetoad_arrived(struct sconcetoad_end *end, const uint8_t *access, size_t access_length, const uint8_t *component,
                           size_t component_length);

/* The next end: the same one where it is refused. */
struct sconcetoad_moving {
    uint8_t refusal;
    struct sconcetoad_end end;
};

/* The end waits no longer. Its refusals are SCONCETOAD_BAD_PROFILE and SCONCETOAD_BAD_TABLE. Alters nothing. */
struct sconcetoad_moving sconcetoad_give_up(struct sconcetoad_end end, const uint8_t *access, size_t access_length);

/* What the page reads of a procedure. Look at `refusal` first, then at `mark`: only a known procedure has a count; beside a refusal the mark is
   SCONCETOAD_DOUBT, and beside doubt the count is SCONCETOAD_NO_COUNT, which is no number of entries. */
struct sconcetoad_page {
    uint8_t refusal;
    uint8_t mark;
    size_t count;
};

/* The refusals are SCONCETOAD_BAD_PROFILE, SCONCETOAD_BAD_TABLE and SCONCETOAD_BAD_REQUEST. Alters nothing. */
struct sconcetoad_page sconcetoad_shown(struct sconcetoad_end end, const uint8_t *access, size_t access_length, uint8_t procedure);

/* Look at `page` first, as sconcetoad_shown has it: `entry` is an entry where the procedure is known and the place is below its count. Else it
   is all zeros and must not be used; there is no flag for it, since where nothing is known there is no list that could be at its end. */
struct sconcetoad_page_entry {
    struct sconcetoad_page page;
    struct sconcetoad_entry entry;
};

/* The entry at the place `place`, from 0 on, of a procedure that is known; of one in doubt none is handed out. The refusals are those of
   sconcetoad_shown, and are told in `page`. Alters nothing. */
struct sconcetoad_page_entry sconcetoad_entry(struct sconcetoad_end end, const uint8_t *access, size_t access_length, uint8_t procedure,
                                              size_t place);

#ifdef __cplusplus
}
#endif

#endif
