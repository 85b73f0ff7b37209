/* The parts of the fuzzer: it puts made, mutated and random things to every function of the border to C, and asks of each answer what document
   01 promises of all of them. */
#ifndef FUZZ_H
#define FUZZ_H

#include "../drive/drive.h"

/* ---- random.c: numbers from a seed */

void seed_with(uint64_t seed);

/* 0 to n - 1; n is not 0. */
unsigned below(unsigned n);

/* Answers 1 in one of n cases. */
int one_in(unsigned n);

/* ---- rooms.c: lent memory that ends, or begins, at a page which nobody may touch */

/* The things that are lent for one call. */
enum room { ACCESS_ROOM, GIVEN_ROOM, OUT_ROOM, ROOMS };

int make_rooms(void);

/* Lends the thing: the octets to hand over. What stands after them, or before them, is no memory. */
uint8_t *lend_room(enum room room, struct lent *lent);

/* What was lent comes back into its record; answers whether all but the first `written` octets are as they were. */
int room_back(enum room room, struct lent *lent, size_t written);

/* ---- mutate.c */

/* Alters some octets, and their number up to `most`. */
void mutate(uint8_t *octets, size_t *count, size_t most);

/* Alters some octets where they stand: of a record. */
void mutate_record(void *record, size_t size);

/* ---- profiles.c, tables.c: what obeys the rules of "Profile and table" */

/* Where fields of an access record stand (docs/RECORDS.md). */
enum {
    ACCESS_NUMBERS = 1,
    ACCESS_SERVICECOUNT = 93,
    ACCESS_SUBSCRIBED = 100,
    ACCESS_COUNTED = 106,
    ACCESS_PREFIXCOUNT = 110,
    ACCESS_PREFIXES = 111,
    NUMBER_SIZE = 23,
    PREFIX_SIZE = 21
};

extern const uint8_t service_codes[16];

void make_access(uint8_t *access);

/* Each is one of the world's profile. */
struct sconcetoad_number number_of_profile(void);
uint8_t service_of_profile(void);

struct sconcetoad_number make_number(void);
struct sconcetoad_address make_address(void);
struct sconcetoad_run make_run(void);

/* ---- components.c: components by clause 7.1, most of them good */

/* A request, such that each error of document 01 is earned now and then. */
struct sconcetoad_request make_request(void);

/* The entries of a procedure in a made run. */
struct sconcetoad_entries make_entries(uint8_t procedure);

/* Each writes a component and answers how many octets it has: what an end might send, and what an exchange might answer to the end at hand. */
size_t make_component(uint8_t *octets);
size_t make_reply(uint8_t *octets);

/* ---- world.c: what there is, and what was wrong with it */

/* The seed and the number of the case; a profile, and a table and an end of it; and what is at hand for one call, which may be something else. */
struct world {
    unsigned long seed, number;
    uint8_t profile[SCONCETOAD_ACCESS];
    struct sconcetoad_table held;
    struct sconcetoad_end kept;
    struct lent access, given, out;
    struct sconcetoad_table table;
    struct sconcetoad_end end;
    struct sconcetoad_request request;
    int as_it_was; /* whether the access record at hand is the profile */
};

extern struct world world;

/* Another profile, table and end. */
void make_world(void);

/* Takes the access record, the table, the end or so many octets of output at hand, now and then a bad one. */
void take_access(void);
void take_table(void);
void take_end(void);
void take_out(size_t least);

/* Components are at hand as they were made, mutated, or random. */
void take_component(size_t (*make)(uint8_t *octets));

/* The call that is at hand, as its line begins: in a dialogue (docs/DIALOGUES.md), or among the cases (docs/ARCHITECTURE.md, "Cases"). */
void at_hand(const char *line);
void case_at_hand(const char *line);

/* Says what is wrong, prints the lines that lead to it, and ends the program. */
void breach(const char *what);
void must(int holds, const char *otherwise);

/* ---- reached.c: which answers there may be, and how often each was given */

enum asked {
    SAID, REPLIED, PUT_REQUEST, PUT_LIST, ARRIVE, REPLY, DIVERT, ORIGINAL, WRITE_SHEET, READ_SHEET, LIST_SHEET, SEND_7, SEND_8, SEND_11, ARRIVED, TAKEN, GIVE_UP,
    SHOWN, ENTRY, ASKED
};

/* Answers that are told apart beside the numbers of refusals. */
enum {
    NO = 20,
    YES = 21,
    SILENCE = 30,
    RESULT = 31,
    LISTED = 32,
    DROPPED = 40,
    CLOSED_KNOWN = 41,
    CLOSED_DOUBT = 42,
    DOUBTED = 43,
    ABSENT = 44,
    NO_ROOM = 45,
    KIND = 50,     /* and the kind of a reply */
    ERROR = 100,   /* and its number */
    GENERAL = 200, /* and the problem */
    INVOKE = 210   /* and the problem */
};

/* Counts the answer; one that there may not be is a breach. */
void reached(enum asked asked, int answer);

/* Prints the counts; answers whether each answer was given. */
int all_reached(void);

/* ---- coding.c, exchange.c, calls.c, nights.c, end.c: each puts one thing to the library and asks what must hold of the answer */

void try_coding(void);
void try_arrival(void);
void try_call(void);
void try_sheet(void);
void try_sending(void);
void try_arrived(void);
void try_page(void);

#endif
