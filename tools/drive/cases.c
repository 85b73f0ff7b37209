/* The cases of components and lists (docs/ARCHITECTURE.md, "Cases"). */
#include <stdio.h>
#include <string.h>
#include "drive.h"

/* The identifier of the request that is outstanding where a reply is read. */
#define OUTSTANDING 5

/* The most octets of a component, and those of an entry's record. */
#define COMPONENT_MOST 1100
#define ENTRY 69

static struct lent component, output;

static char *number_said(char *at, const struct sconcetoad_number *number)
{
    if (number->form == SCONCETOAD_OTHER_KIND)
        return at + sprintf(at, "other");
    at += number->form == SCONCETOAD_UNKNOWN ? sprintf(at, "u ") : sprintf(at, "p%d ", number->kind);
    return at + sprintf(at, "%.*s", number->count, (const char *)number->digits);
}

static char *forwarded_said(char *at, const struct sconcetoad_forwarded *to)
{
    at = number_said(at, &to->address.number);
    if (to->user == 1)
        return at + sprintf(at, " user");
    if (to->address.subcount == 0)
        return at;
    at += sprintf(at, " sub");
    return spaced_to(at, to->address.sub, to->address.subcount);
}

static char *served_said(char *at, const struct sconcetoad_served *served)
{
    return served->all == 1 ? at + sprintf(at, "all") : number_said(at, &served->number);
}

static const char *operation_said(int operation)
{
    switch (operation) {
    case SCONCETOAD_ACTIVATION: return "activation";
    case SCONCETOAD_DEACTIVATION: return "deactivation";
    case SCONCETOAD_INTERROGATION: return "interrogation";
    default: return "?";
    }
}

static char *request_said(char *at, const struct sconcetoad_said *said)
{
    const struct sconcetoad_request *request = &said->request;
    at += sprintf(at, "asks %d %s %d %d", said->identifier, operation_said(said->operation), request->procedure, request->service);
    if (said->operation == SCONCETOAD_ACTIVATION)
        at = forwarded_said(at + sprintf(at, " to "), &request->to);
    return served_said(at + sprintf(at, " served "), &request->served);
}

/* The octets of the same request as the end would send it, if it may; nothing where it may not. */
static char *again_said(char *at, const struct sconcetoad_said *said)
{
    output.size = SCONCETOAD_OUTPUT;
    lend_filled(&output);
    struct sconcetoad_octets put =
        sconcetoad_put_request(lent_octets(&output), output.size, said->identifier, (uint8_t)said->operation, said->request);
    if (!came_back(&output, written_of(put.refusal, put.count)))
        return at + sprintf(at, " spilled");
    if (put.refusal == SCONCETOAD_BAD_REQUEST && put.count == 0)
        return at;
    if (put.refusal != SCONCETOAD_ANSWERED || put.count == 0)
        return at + sprintf(at, " %s", refusal_said(put.refusal));
    return spaced_to(at + sprintf(at, " again"), lent_octets(&output), put.count);
}

/* Why it is no request that can be read. */
static char *row_said(char *at, const struct sconcetoad_said *said)
{
    uint8_t row = said->row;
    if (row == SCONCETOAD_ROW_NO_OPERATION)
        return at + sprintf(at, "no operation %d", said->identifier);
    if (row == SCONCETOAD_ROW_ASKS) {
        int known = strcmp(operation_said(said->operation), "?") != 0;
        return at + sprintf(at, "asks %d operation %d%s", said->identifier, said->operation, known ? " wrong" : "");
    }
    return at + sprintf(at, "%s",
                        row == SCONCETOAD_ROW_NOT_ONE         ? "not one"
                        : row == SCONCETOAD_ROW_REPLY         ? "silent"
                        : row == SCONCETOAD_ROW_OTHER_TAG     ? "other tag"
                        : row == SCONCETOAD_ROW_NO_IDENTIFIER ? "no identifier"
                                                              : "?");
}

static int read_request(void)
{
    static char line[LINE_MOST];
    lend(&component);
    struct sconcetoad_said said = sconcetoad_said(lent_octets(&component), component.size);
    if (!came_back(&component, 0))
        return wrong("an octet changed that should not");
    end_line(line, said.asks == 1 ? again_said(request_said(line, &said), &said) : row_said(line, &said));
    return 0;
}

static char *entries_said(char *at, const struct sconcetoad_entries *list)
{
    uint8_t octets[sizeof(struct sconcetoad_entry)];
    at += sprintf(at, "list");
    for (int i = 0; i < list->count && i < SCONCETOAD_ENTRIES; i++)
        at = spaced_to(at, octets, (size_t)(entry_to(octets, &list->entries[i]) - octets));
    return at;
}

/* No switch: two kinds that the header calls by one number would not be built. */
static char *reply_said(char *at, const struct sconcetoad_replied *replied)
{
    uint8_t kind = replied->kind;
    if (kind == SCONCETOAD_REPLY_LISTED)
        return entries_said(at, &replied->list);
    if (kind == SCONCETOAD_REPLY_FAILED)
        return at + sprintf(at, "failed %d", replied->value);
    return at + sprintf(at, "%s",
                        kind == SCONCETOAD_REPLY_DROPPED    ? "dropped"
                        : kind == SCONCETOAD_REPLY_WRONG    ? "wrong"
                        : kind == SCONCETOAD_REPLY_REJECTED ? "rejected"
                        : kind == SCONCETOAD_REPLY_DONE     ? "done"
                                                            : "?");
}

static int read_reply(uint8_t operation)
{
    static char line[LINE_MOST];
    lend(&component);
    struct sconcetoad_replied replied = sconcetoad_reply(lent_octets(&component), component.size, OUTSTANDING, operation);
    if (!came_back(&component, 0))
        return wrong("an octet changed that should not");
    if (replied.kind != SCONCETOAD_REPLY_LISTED && replied.list.count != SCONCETOAD_NO_COUNT)
        return wrong("an empty list stands where there is none");
    end_line(line, reply_said(line, &replied));
    return 0;
}

/* The mark of a room that is too small: whether nothing was written there. */
static char mark(size_t room, int16_t identifier, const struct sconcetoad_entries *list)
{
    output.size = room;
    lend_filled(&output);
    struct sconcetoad_octets put = sconcetoad_put_list(lent_octets(&output), output.size, identifier, *list);
    return came_back(&output, 0) && put.refusal == SCONCETOAD_SHORT_OUTPUT && put.count == 0 ? '.' : '!';
}

static int put_list(int16_t identifier, const struct sconcetoad_entries *list)
{
    static char line[LINE_MOST];
    output.size = SCONCETOAD_OUTPUT;
    lend_filled(&output);
    struct sconcetoad_octets put = sconcetoad_put_list(lent_octets(&output), output.size, identifier, *list);
    size_t count = put.count;
    if (put.refusal != SCONCETOAD_ANSWERED || count == 0 || count > output.size || !came_back(&output, count))
        return wrong("an octet changed that should not");
    char *at = spaced_to(line, lent_octets(&output), count);
    at += sprintf(at, " room ");
    *at++ = mark(count - 1, identifier, list);
    *at++ = mark(0, identifier, list);
    end_line(line + 1, at);
    return 0;
}

/* The octets of an identifier, and of the record of each entry. */
static int write_list(void)
{
    const uint8_t *at = lent_octets(&component);
    const uint8_t *end = at + component.size;
    struct sconcetoad_entries list;
    if (component.size < 2 || (component.size - 2) % ENTRY != 0 || component.size > 2 + SCONCETOAD_ENTRIES * ENTRY)
        return wrong("a list has an identifier, and 0 to 8 entries");
    int16_t identifier = (int16_t)(at[0] * 256 + at[1]);
    memset(&list, 0, sizeof list);
    for (at += 2; at < end; list.count++)
        at = entry_from(at, &list.entries[list.count]);
    return put_list(identifier, &list);
}

static void leave_spaces_out(char *text)
{
    char *to = text;
    for (; *text; text++)
        if (*text != ' ')
            *to++ = *text;
    *to = '\0';
}

static int obey(char *line)
{
    char *rest = rest_of(line);
    leave_spaces_out(rest);
    if (set_octets(&component, rest, COMPONENT_MOST, "a case has 0 to 1100 octets, in upper-case hexadecimal"))
        return 1;
    if (strcmp(line, "component") == 0)
        return read_request() || say_canaries();
    if (strcmp(line, "list-read") == 0 || strcmp(line, "reply-11") == 0)
        return read_reply(SCONCETOAD_INTERROGATION) || say_canaries();
    if (strcmp(line, "reply-7") == 0)
        return read_reply(SCONCETOAD_ACTIVATION) || say_canaries();
    if (strcmp(line, "reply-8") == 0)
        return read_reply(SCONCETOAD_DEACTIVATION) || say_canaries();
    if (strcmp(line, "list-write") == 0)
        return write_list() || say_canaries();
    return wrong("this is no case");
}

int cases(void)
{
    return each_line(obey);
}
