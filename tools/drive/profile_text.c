/* An access record as people write it: a line for each value (docs/RECORDS.md, "A profile as a text"). Which values there may be, only the
   library judges. */
#include <stdio.h>
#include <stdlib.h>
#include <string.h>
#include "drive.h"

#define DIGITS 20

/* ---- what a place of a field holds, in and out */

/* Characters are taken as they stand. Answers whether there is a place for each. */
static int take_digits(const char *value, uint8_t *at)
{
    size_t count = strlen(value);
    if (count > DIGITS)
        return 0;
    at[0] = (uint8_t)count;
    memcpy(at + 1, value, count);
    return 1;
}

static int say_digits(char *text, const uint8_t *at)
{
    return sprintf(text, "%.*s", at[0], (const char *)at + 1);
}

/* As listings have it: u, or p with its type, and then the digits. */
static int take_number(const char *value, uint8_t *at)
{
    int is_public = value[0] == 'p' && value[1] >= '0' && value[1] <= '9';
    const char *digits = value + 1 + is_public;
    if (!(is_public || value[0] == 'u') || *digits != ' ')
        return 0;
    at[0] = (uint8_t)is_public;
    at[1] = (uint8_t)(is_public ? value[1] - '0' : 0);
    return take_digits(digits + strspn(digits, " "), at + 2);
}

static int say_number(char *text, const uint8_t *at)
{
    int count = at[0] == 0 ? sprintf(text, "u ") : sprintf(text, "p%d ", at[1]);
    return count + say_digits(text + count, at + 2);
}

static int take_octet(const char *value, uint8_t *at)
{
    size_t count = strlen(value);
    if (count < 1 || count > 3 || strspn(value, "0123456789") != count || atoi(value) > 255)
        return 0;
    *at = (uint8_t)atoi(value);
    return 1;
}

static int say_octet(char *text, const uint8_t *at)
{
    return sprintf(text, "%d", *at);
}

static int take_flag(const char *value, uint8_t *at)
{
    *at = strcmp(value, "yes") == 0;
    return *at || strcmp(value, "no") == 0;
}

static int say_flag(char *text, const uint8_t *at)
{
    return sprintf(text, *at ? "yes" : "no");
}

/* ---- the fields, in the order of the record */

#define NO_COUNT ((size_t)-1)

/* Where the count of its places stands, if they are counted; where the first stands, how many octets each has and how many there are. */
static const struct field {
    const char *name;
    size_t count, at, size, places;
    int (*take)(const char *value, uint8_t *at);
    int (*say)(char *text, const uint8_t *at);
    const char *rule;
} fields[] = {
    {"number", 0, 1, 23, 4, take_number, say_number,
     "a number is u or p0 to p4 or p6, and 1 to 20 digits; there are 1 to 4, all different, and only one where msn is no"},
    {"service", 93, 94, 1, 6, take_octet, say_octet, "a service is one of 1 to 5 and 32 to 42; there are 1 to 6, ascending"},
    {"cfu", NO_COUNT, 100, 1, 1, take_flag, say_flag, "cfu is yes or no"},
    {"cfb", NO_COUNT, 101, 1, 1, take_flag, say_flag, "cfb is yes or no"},
    {"cfnr", NO_COUNT, 102, 1, 1, take_flag, say_flag, "cfnr is yes or no"},
    {"msn", NO_COUNT, 103, 1, 1, take_flag, say_flag, "msn is yes or no; no needs exactly one number"},
    {"all", NO_COUNT, 104, 1, 1, take_flag, say_flag, "all is yes or no"},
    {"inuse", NO_COUNT, 105, 1, 1, take_flag, say_flag, "inuse is yes or no"},
    {"counted", NO_COUNT, 106, 1, 1, take_flag, say_flag, "counted is yes or no"},
    {"option", NO_COUNT, 107, 1, 1, take_octet, say_octet, "option is 0, 1 or 2"},
    {"release", NO_COUNT, 108, 1, 1, take_flag, say_flag, "release is yes or no"},
    {"limit", NO_COUNT, 109, 1, 1, take_octet, say_octet, "limit is 1 to 5"},
    {"prefix", 110, 111, 21, 16, take_digits, say_digits, "a prefix has 1 to 20 digits; there are at most 16"},
};

#define FIELDS (sizeof fields / sizeof fields[0])
#define PREFIX (FIELDS - 1)

/* A good profile, into which the lines are put one after the other: so the first line that makes it a bad one is at fault. */
static void begin(uint8_t *access)
{
    static const uint8_t number[] = {1, 0, 0, 1, '0'};
    memset(access, 0, SCONCETOAD_ACCESS);
    memcpy(access, number, sizeof number);
    access[93] = 1;
    access[94] = 1;
    access[103] = 1;
    access[109] = 5;
}

int profile_refused(const uint8_t *access, size_t size)
{
    uint8_t nothing = 0, out[SCONCETOAD_OUTPUT];
    return sconcetoad_arrive(sconcetoad_fresh_table(), access, size, &nothing, 0, out, sizeof out).refusal == SCONCETOAD_BAD_PROFILE;
}

/* ---- from a text */

static int fault_of(struct profile_fault *fault, long line, const char *what, const char *name)
{
    fault->line = line;
    snprintf(fault->what, sizeof fault->what, "%s%s", what, name);
    return 0;
}

/* Without its remark, and without spaces before and after it. */
static char *trimmed(char *line)
{
    line[strcspn(line, "#")] = '\0';
    for (char *c = line; *c; c++)
        if (*c == '\t' || *c == '\r')
            *c = ' ';
    line += strspn(line, " ");
    size_t length = strlen(line);
    while (length > 0 && line[length - 1] == ' ')
        line[--length] = '\0';
    return line;
}

static int take_line(char *line, long at_line, size_t *given, uint8_t *access, struct profile_fault *fault)
{
    char *value = line + strcspn(line, " ");
    if (*value)
        *value++ = '\0';
    value += strspn(value, " ");
    size_t f = 0;
    while (f < FIELDS && strcmp(fields[f].name, line) != 0)
        f++;
    if (f == FIELDS)
        return fault_of(fault, at_line, "there is no such field: ", line);
    const struct field *field = &fields[f];
    size_t place = given[f]++;
    if (field->count == NO_COUNT && place == field->places)
        return fault_of(fault, at_line, "an earlier line has it too: ", line);
    if (place == field->places || !field->take(value, access + field->at + place * field->size))
        return fault_of(fault, at_line, field->rule, "");
    if (field->count != NO_COUNT)
        access[field->count] = (uint8_t)(place + 1);
    return profile_refused(access, SCONCETOAD_ACCESS) ? fault_of(fault, at_line, field->rule, "") : 1;
}

int profile_from(const char *text, uint8_t *access, struct profile_fault *fault)
{
    size_t given[FIELDS] = {0};
    char line[PROFILE_LINE + 1];
    begin(access);
    for (long at_line = 1; *text; at_line++) {
        size_t length = strcspn(text, "\n");
        if (length > PROFILE_LINE)
            return fault_of(fault, at_line, "a line has at most 200 characters", "");
        memcpy(line, text, length);
        line[length] = '\0';
        char *said = trimmed(line);
        if (*said && !take_line(said, at_line, given, access, fault))
            return 0;
        text += length + (text[length] == '\n');
    }
    for (size_t f = 0; f < FIELDS; f++)
        if (given[f] == 0 && f != PREFIX)
            return fault_of(fault, 0, "no line gives ", fields[f].name);
    return 1;
}

/* ---- to a text */

void profile_to(char *text, const uint8_t *access)
{
    for (size_t f = 0; f < FIELDS; f++) {
        const struct field *field = &fields[f];
        size_t count = field->count == NO_COUNT ? 1 : access[field->count];
        for (size_t place = 0; place < count; place++) {
            text += sprintf(text, "%-7s ", field->name);
            text += field->say(text, access + field->at + place * field->size);
            text += sprintf(text, "\n");
        }
    }
}
