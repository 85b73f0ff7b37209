/* A dialogue with the exchange, in lines (docs/DIALOGUES.md). */
#include <stdio.h>
#include <stdlib.h>
#include <string.h>
#include "drive.h"

/* The most octets of what a line sets. */
#define ACCESS_MOST 512
#define COMPONENT_MOST 1100
#define CALL_MOST 64
#define SHEET_MOST 2000
#define OUTPUT_MOST 2048

static struct lent access_record, component, call, sheet, output, digits;
static struct sconcetoad_table table;

/* Octets, or a profile by the name of its file. */
static int set_access(const char *text)
{
    if (text[0] != '@')
        return set_octets(&access_record, text, ACCESS_MOST, "an access record has 0 to 512 octets, in upper-case hexadecimal");
    if (profile_file(text + 1, lent_octets(&access_record)))
        return wrong("this file holds no profile");
    access_record.size = PROFILE_OCTETS;
    return 0;
}

static int set_table(const char *text)
{
    static uint8_t octets[TABLE_MOST];
    long count = octets_from(text, octets, sizeof octets);
    if (count < 0 || !table_from(octets, (size_t)count, &table))
        return wrong("this is no table");
    return 0;
}

static int set_output(const char *text)
{
    char *end;
    unsigned long size = strtoul(text, &end, 10);
    if (text[0] < '0' || text[0] > '9' || *end || size > OUTPUT_MOST)
        return wrong("an output has 0 to 2048 octets");
    output.size = size;
    return 0;
}

static char *table_said(char *at, const struct sconcetoad_table *said)
{
    static uint8_t octets[TABLE_MOST];
    at += sprintf(at, "table ");
    return octets_to(at, octets, table_to(octets, said));
}

static void say(const struct sconcetoad_arrival *arrival, int kept)
{
    static char line[LINE_MOST];
    char *at = line;
    if (arrival->refusal != SCONCETOAD_ANSWERED) {
        at += sprintf(at, "%s", refusal_said(arrival->refusal));
    } else if (arrival->count == 0) {
        at += sprintf(at, "silent");
    } else {
        at += sprintf(at, "replied ");
        at = octets_to(at, lent_octets(&output), arrival->count);
    }
    at += sprintf(at, " %s ", kept ? "kept" : "spilled");
    at = table_said(at, &arrival->table);
    if (arrival->refusal == SCONCETOAD_ANSWERED && !comes_back(&arrival->table, &access_record))
        at += sprintf(at, " sheet differs");
    end_line(line, at);
}

static int arrive(const char *text)
{
    if (set_octets(&component, text, COMPONENT_MOST, "a component has 0 to 1100 octets, in upper-case hexadecimal"))
        return 1;
    lend(&access_record);
    lend(&component);
    lend_filled(&output);
    struct sconcetoad_arrival arrival =
        sconcetoad_arrive(table, lent_octets(&access_record), access_record.size, lent_octets(&component), component.size,
                          lent_octets(&output), output.size);
    size_t written = written_of(arrival.refusal, arrival.count);
    if (written > output.size)
        return wrong("the reply is longer than the output");
    int kept = came_back(&access_record, 0) && came_back(&component, 0) && came_back(&output, written);
    say(&arrival, kept);
    table = arrival.table;
    return 0;
}

static void say_diversion(const struct sconcetoad_diversion *diversion, size_t count)
{
    static char line[LINE_MOST];
    uint8_t octets[sizeof diversion->call];
    char *at = line;
    if (diversion->refusal != SCONCETOAD_ANSWERED) {
        at += sprintf(at, "%s", refusal_said(diversion->refusal));
    } else if (diversion->reason == 0) {
        at += sprintf(at, "passed");
    } else {
        at += sprintf(at, "diverted %d %d ", diversion->reason, diversion->notice);
        at = octets_to(at, octets, (size_t)(onward_to(octets, &diversion->call) - octets));
        at += sprintf(at, count == 0 ? " original" : " original ");
        at = octets_to(at, lent_octets(&digits), count);
    }
    end_line(line, at);
}

static int divert(const char *text)
{
    if (set_octets(&call, text, CALL_MOST, "a call has 0 to 64 octets, in upper-case hexadecimal"))
        return 1;
    lend(&access_record);
    lend(&call);
    lend_filled(&digits);
    struct sconcetoad_diversion diversion =
        sconcetoad_divert(table, lent_octets(&access_record), access_record.size, lent_octets(&call), call.size);
    struct sconcetoad_handed_on original = sconcetoad_original(table, lent_octets(&access_record), access_record.size, lent_octets(&call),
                                                               call.size, lent_octets(&digits), digits.size);
    size_t count = original.count;
    if (count > digits.size || !came_back(&access_record, 0) || !came_back(&call, 0) || !came_back(&digits, count))
        return wrong("an octet changed that should not");
    if (original.length != count || original.refusal != diversion.refusal || original.reason != diversion.reason)
        return wrong("another thing is told of the original number than of the call");
    say_diversion(&diversion, count);
    return 0;
}

static int write_sheet(void)
{
    static char line[LINE_MOST];
    char *at = line;
    lend(&access_record);
    lend_filled(&output);
    struct sconcetoad_octets written =
        sconcetoad_write_sheet(table, lent_octets(&access_record), access_record.size, lent_octets(&output), output.size);
    if (written.count > output.size)
        return wrong("the sheet is longer than the output");
    if (written.refusal != SCONCETOAD_ANSWERED) {
        at += sprintf(at, "%s", refusal_said(written.refusal));
    } else {
        at += sprintf(at, "wrote ");
        at = octets_to(at, lent_octets(&output), written.count);
    }
    int kept = came_back(&access_record, 0) && came_back(&output, written_of(written.refusal, written.count));
    at += sprintf(at, kept ? " kept" : " spilled");
    end_line(line, at);
    return 0;
}

static int read_sheet(const char *text)
{
    static char line[LINE_MOST];
    if (set_octets(&sheet, text, SHEET_MOST, "a sheet has 0 to 2000 octets, in upper-case hexadecimal"))
        return 1;
    lend(&access_record);
    lend(&sheet);
    struct sconcetoad_sheet_taken taken =
        sconcetoad_read_sheet(lent_octets(&access_record), access_record.size, lent_octets(&sheet), sheet.size);
    if (!came_back(&access_record, 0) || !came_back(&sheet, 0))
        return wrong("an octet changed that should not");
    if (taken.refusal != SCONCETOAD_ANSWERED)
        return puts(refusal_said(taken.refusal)) == EOF;
    table = taken.table;
    end_line(line, table_said(line + sprintf(line, "read "), &table));
    return 0;
}

static int list_sheet(const char *text)
{
    if (set_octets(&sheet, text, SHEET_MOST, "a sheet has 0 to 2000 octets, in upper-case hexadecimal"))
        return 1;
    lend(&sheet);
    lend_filled(&output);
    struct sconcetoad_octets listed =
        sconcetoad_list_sheet(lent_octets(&sheet), sheet.size, lent_octets(&output), output.size);
    size_t count = written_of(listed.refusal, listed.count);
    if (count > output.size || !came_back(&sheet, 0) || !came_back(&output, count))
        return wrong("an octet changed that should not");
    if (listed.refusal != SCONCETOAD_ANSWERED)
        return puts(refusal_said(listed.refusal)) == EOF;
    return fwrite(lent_octets(&output), 1, count, stdout) != count;
}

/* What there is at the start: the things lent are numbered anew too. */
static int start(void)
{
    access_record.size = 0;
    output.size = SCONCETOAD_OUTPUT;
    table = sconcetoad_fresh_table();
    desk_anew();
    lend_anew();
    return 0;
}

static int obey(char *line)
{
    if (line[0] == '#')
        return puts(line) == EOF;
    char *rest = rest_of(line);
    if (strcmp(line, "start") == 0 && *rest == '\0')
        return start();
    if (strcmp(line, "access") == 0)
        return set_access(rest);
    if (strcmp(line, "table") == 0)
        return set_table(rest);
    if (strcmp(line, "end") == 0)
        return set_end(rest);
    if (strcmp(line, "output") == 0)
        return set_output(rest);
    if (strcmp(line, "component") == 0)
        return arrive(rest) || say_canaries();
    if (strcmp(line, "call") == 0)
        return divert(rest) || say_canaries();
    if (strcmp(line, "write") == 0 && *rest == '\0')
        return write_sheet() || say_canaries();
    if (strcmp(line, "read") == 0)
        return read_sheet(rest) || say_canaries();
    if (strcmp(line, "list") == 0)
        return list_sheet(rest) || say_canaries();
    int failed;
    if (desk_obeys(line, rest, &access_record, &component, &output, &failed))
        return failed || say_canaries();
    return wrong("this is no line of a dialogue");
}

int dialogue(void)
{
    digits.size = SCONCETOAD_DIGITS;
    start();
    return each_line(obey);
}
