/* The parts of the driver. */
#ifndef DRIVE_H
#define DRIVE_H

#include <stddef.h>
#include <stdint.h>
#include "../../include/sconcetoad.h"

/* ---- octets.c: octets as lines have them */

/* Reads upper-case hexadecimal to the end of the text; answers how many octets, or -1 where it is none or more than `most`. */
long octets_from(const char *text, uint8_t *octets, size_t most);

/* Writes hexadecimal and answers where it ends. */
char *octets_to(char *at, const uint8_t *octets, size_t count);

/* The same with a space before each octet. */
char *spaced_to(char *at, const uint8_t *octets, size_t count);

/* ---- records.c: records octet by octet, each field by its name (docs/RECORDS.md) */

/* Each reads or writes a record's octets and answers where they end. */
const uint8_t *entry_from(const uint8_t *at, struct sconcetoad_entry *entry);
uint8_t *entry_to(uint8_t *at, const struct sconcetoad_entry *entry);
uint8_t *onward_to(uint8_t *at, const struct sconcetoad_onward *onward);

/* The most octets of a table in a line (docs/DIALOGUES.md): the identifier, the count, and every place. */
#define TABLE_MOST (3 + SCONCETOAD_INSTANCES * sizeof(struct sconcetoad_instance))

/* Answers whether the octets are a table. */
int table_from(const uint8_t *octets, size_t count, struct sconcetoad_table *table);
size_t table_to(uint8_t *octets, const struct sconcetoad_table *table);

/* The octets of a request record, and the most of an end in a line. */
#define REQUEST_SIZE 71
#define END_MOST (5 + REQUEST_SIZE + 3 + 1 + SCONCETOAD_INSTANCES * sizeof(struct sconcetoad_instance))

const uint8_t *request_from(const uint8_t *at, struct sconcetoad_request *request);

/* Answers whether the octets are an end; those that are not given are zeros. */
int end_from(const uint8_t *octets, size_t count, struct sconcetoad_end *end);
size_t end_to(uint8_t *octets, const struct sconcetoad_end *end);

/* ---- refusals.c: the local refusals by the header's names */

/* What is printed of a refusal: document 01's number of it, or `refused ?` where the header has no name for it. */
const char *refusal_said(uint8_t refusal);

/* How many octets of the output may be others than before: none where it is refused. */
size_t written_of(uint8_t refusal, size_t count);

/* ---- lent.c: what is lent to the library, between canaries, and whether it came back as it was */

#define LENT_MOST 2048
#define LENT_CANARY 8

/* The most things that are lent for one line. */
#define LENT_A_LINE 9

/* `size` octets with canaries before and after them, and a copy of all three from before the call. */
struct lent {
    size_t size;
    uint8_t octets[LENT_CANARY + LENT_MOST + LENT_CANARY];
    uint8_t before[LENT_CANARY + LENT_MOST + LENT_CANARY];
};

uint8_t *lent_octets(struct lent *lent);

/* The next thing is the first. */
void lend_anew(void);

/* Puts the canaries of the next thing around it (docs/DIALOGUES.md). */
void lend(struct lent *lent);

/* Gives it other octets too. */
void lend_filled(struct lent *lent);

/* Notes the canaries as they stand; answers whether they and the octets from `from` on are as they were. */
int came_back(struct lent *lent, size_t from);

/* From now on canaries are printed. */
void ask_canaries(void);

/* Prints, where that was asked, the canaries of all that came back since it was last called. */
int say_canaries(void);

/* ---- lines.c: lines in and out */

#define LINE_MOST 16000

/* Says what is wrong with the line at hand, and answers 1. */
int wrong(const char *what);

/* Ends the word that a line begins with, and answers what stands after one space, or nothing. */
char *rest_of(char *line);

/* What is lent is from now on these octets; `otherwise` is said where they are none, or more than `most`. */
int set_octets(struct lent *lent, const char *text, size_t most, const char *otherwise);

void end_line(char *line, char *at);

/* Hands over one line of the standard input after the other, until one answers other than 0. */
int each_line(int (*obey)(char *line));

/* ---- profile_text.c, profile.c: an access record as people write it (docs/RECORDS.md, "A profile as a text") */

#define PROFILE_OCTETS SCONCETOAD_ACCESS
#define PROFILE_TEXT 16000
#define PROFILE_LINE 200

/* What a text that is no profile has wrong: in which line, 0 where it is in none, and what. */
struct profile_fault {
    long line;
    char what[PROFILE_LINE + 100];
};

/* Makes an access record of a text; answers whether there is one, and the library takes it. */
int profile_from(const char *text, uint8_t *access, struct profile_fault *fault);

/* Writes the text of an access record that the library takes, in at most PROFILE_TEXT characters. */
void profile_to(char *text, const uint8_t *access);

/* Whether the library refuses the access record. */
int profile_refused(const uint8_t *access, size_t size);

/* Makes an access record of the text in a file; says what is wrong, and answers 1, where there is none. */
int profile_file(const char *name, uint8_t *access);

/* ---- sheets.c: night sheets there and back */

/* Whether the table, written as a sheet and read again, is written as the same sheet and has the same last handled identifier, with every
   octet kept that should be. Octets that carry no meaning are in no sheet, so the tables themselves may differ. */
int comes_back(const struct sconcetoad_table *table, struct lent *access_record);

/* ---- occasions.c: arrivals that are measured */

#define ACTIVATION_SIZE 27

extern const uint8_t activation[ACTIVATION_SIZE];

struct occasion {
    const char *name;
    struct sconcetoad_table table;
    uint8_t access[SCONCETOAD_ACCESS];
    const uint8_t *component;
    size_t size;
    size_t reply;
};

/* Where the codes of the services stand in an access record. */
#define ACCESS_SERVICES 94

/* Makes zeros the access record of four numbers, six services, every procedure, MSN and "all numbers", in use, with a counted end. */
void wide_access(uint8_t *access);

/* Each answers whether there is such an occasion; they are numbered from 0. */
int occasion_numbered(size_t n, struct occasion *occasion);
int occasion_named(const char *name, struct occasion *occasion);

/* ---- scale.c: arrivals that grow */

/* `scale-instances-N`, `scale-octets-N` or `scale-prefixes-N`; `arrive-dearest` and, of activations, `arrive-dearest-activation`; answers whether
   there is such an occasion. */
int scale_named(const char *name, struct occasion *occasion);

/* ---- desk.c: the customer end's lines of a dialogue */

/* The end there is becomes a fresh one, or that of a line. */
void desk_anew(void);
int set_end(const char *text);

/* Answers whether the word begins a line on which the end does something, and then obeys it: `failed` becomes what each_line wants. */
int desk_obeys(const char *word, const char *rest, struct lent *access_record, struct lent *component, struct lent *output, int *failed);

/* ---- lent_records.c: the access record and the call record by the header's fields */

void say_lent_records(void);

/* ---- what the driver does */

int dialogue(void);
int profile(int back);
int cases(void);
int limits(void);
int bench(const char *what, long turns);
int bench_desk(const char *what, long turns);
int stack(void);

#endif
