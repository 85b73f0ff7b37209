/* The customer end in a dialogue (docs/DIALOGUES.md). */
#include <stdio.h>
#include <stdlib.h>
#include <string.h>
#include "drive.h"

#define COMPONENT_MOST 1100

static struct sconcetoad_end end;

void desk_anew(void)
{
    end = sconcetoad_fresh_end();
}

int set_end(const char *text)
{
    static uint8_t octets[END_MOST];
    long count = octets_from(text, octets, sizeof octets);
    if (count < 0 || !end_from(octets, (size_t)count, &end))
        return wrong("this is no end");
    return 0;
}

/* A line of the end ends with whether all came back as it was, and with the end there is from now on. */
static void say_end(char *line, char *at, int kept, const struct sconcetoad_end *next)
{
    static uint8_t octets[END_MOST];
    end = *next;
    at += sprintf(at, " %s end ", kept ? "kept" : "spilled");
    end_line(line, octets_to(at, octets, end_to(octets, &end)));
}

/* 0 to 255, or -1. */
static long procedure_from(const char *text)
{
    char *stop;
    long procedure = strtol(text, &stop, 10);
    return text[0] < '0' || text[0] > '9' || *stop || procedure > 255 ? -1 : procedure;
}

static int sends(const char *text, struct lent *access_record, struct lent *output)
{
    static char line[LINE_MOST];
    uint8_t octets[REQUEST_SIZE];
    struct sconcetoad_request request;
    struct sconcetoad_sending sending;
    int operation = strncmp(text, "7 ", 2) == 0 ? 7 : strncmp(text, "8 ", 2) == 0 ? 8 : strncmp(text, "11 ", 3) == 0 ? 11 : 0;
    const char *what = text + (operation == 11 ? 3 : 2);
    long procedure = operation == 11 ? procedure_from(what) : 0;
    if (operation == 0 || procedure < 0 ||
        (operation != 11 && octets_from(what, octets, sizeof octets) != (long)sizeof octets))
        return wrong("an end sends 7 or 8 with a request of 71 octets, or 11 with a procedure");
    lend(access_record);
    lend_filled(output);
    const uint8_t *access = lent_octets(access_record);
    uint8_t *out = lent_octets(output);
    if (operation == 11) {
        sending = sconcetoad_interrogate(end, access, access_record->size, (uint8_t)procedure, out, output->size);
    } else {
        request_from(octets, &request);
        sending = operation == 7 ? sconcetoad_activate(end, access, access_record->size, request, out, output->size)
                                 : sconcetoad_deactivate(end, access, access_record->size, request, out, output->size);
    }
    size_t written = written_of(sending.refusal, sending.count);
    if (written > output->size)
        return wrong("the request is longer than the output");
    char *at = line + sprintf(line, "%s", sending.refusal == SCONCETOAD_ANSWERED ? "sent " : refusal_said(sending.refusal));
    at = octets_to(at, out, written);
    int kept = came_back(access_record, 0) && came_back(output, written);
    say_end(line, at, kept, &sending.end);
    return 0;
}

static void say_moving(uint8_t refusal, const struct sconcetoad_end *next, const char *done, int kept)
{
    static char line[LINE_MOST];
    char *at = line + sprintf(line, "%s", refusal == SCONCETOAD_ANSWERED ? done : refusal_said(refusal));
    say_end(line, at, kept, next);
}

static int arrived(const char *text, struct lent *access_record, struct lent *component)
{
    if (set_octets(component, text, COMPONENT_MOST, "a component has 0 to 1100 octets, in upper-case hexadecimal"))
        return 1;
    /* Lent octets begin at a multiple of eight, so a record may stand there. */
    static struct lent standing;
    struct sconcetoad_end next;
    standing.size = sizeof end;
    memcpy(lent_octets(&standing), &end, sizeof end);
    lend(access_record);
    lend(component);
    lend(&standing);
    uint8_t refusal = sconcetoad_arrived((struct sconcetoad_end *)lent_octets(&standing), lent_octets(access_record), access_record->size,
                                         lent_octets(component), component->size);
    int kept = came_back(access_record, 0) && came_back(component, 0) && came_back(&standing, written_of(refusal, standing.size));
    memcpy(&next, lent_octets(&standing), sizeof next);
    say_moving(refusal, &next, "taken", kept);
    return 0;
}

static int gives_up(struct lent *access_record)
{
    lend(access_record);
    struct sconcetoad_moving moving = sconcetoad_give_up(end, lent_octets(access_record), access_record->size);
    int kept = came_back(access_record, 0);
    say_moving(moving.refusal, &moving.end, "gave-up", kept);
    return 0;
}

/* A page's refusal, mark and count as words; a record that says two things at once is a fault. */
static int page_wrong(const struct sconcetoad_page *page)
{
    if (page->refusal != SCONCETOAD_ANSWERED || page->mark == SCONCETOAD_DOUBT)
        return page->mark != SCONCETOAD_DOUBT || page->count != SCONCETOAD_NO_COUNT;
    return page->mark != SCONCETOAD_KNOWN || page->count > SCONCETOAD_ENTRIES;
}

static int same_page(const struct sconcetoad_page *a, const struct sconcetoad_page *b)
{
    return a->refusal == b->refusal && a->mark == b->mark && a->count == b->count;
}

/* An entry that is none is handed out as zeros, beside the same page. */
static int none_handed_out(const struct sconcetoad_page_entry *out, const struct sconcetoad_page *page)
{
    static struct sconcetoad_entry none;
    return same_page(&out->page, page) && memcmp(&out->entry, &none, sizeof none) == 0;
}

static int shown(const char *text, struct lent *access_record)
{
    static char line[LINE_MOST];
    long procedure = procedure_from(text);
    if (procedure < 0)
        return wrong("a procedure is 0 to 255");
    lend(access_record);
    struct sconcetoad_page page = sconcetoad_shown(end, lent_octets(access_record), access_record->size, (uint8_t)procedure);
    int kept = came_back(access_record, 0);
    if (page_wrong(&page))
        return wrong("a page says two things");
    int known = page.refusal == SCONCETOAD_ANSWERED && page.mark == SCONCETOAD_KNOWN;
    char *at = line + sprintf(line, "%s", page.refusal != SCONCETOAD_ANSWERED ? refusal_said(page.refusal) : known ? "known" : "doubt");
    for (size_t place = 0; known && place < page.count; place++) {
        uint8_t octets[sizeof(struct sconcetoad_entry)];
        lend(access_record);
        struct sconcetoad_page_entry out =
            sconcetoad_entry(end, lent_octets(access_record), access_record->size, (uint8_t)procedure, place);
        kept = came_back(access_record, 0) && kept;
        if (!same_page(&out.page, &page))
            return wrong("an entry has another page");
        *at++ = ' ';
        at = octets_to(at, octets, (size_t)(entry_to(octets, &out.entry) - octets));
    }
    struct sconcetoad_page_entry past =
        sconcetoad_entry(end, lent_octets(access_record), access_record->size, (uint8_t)procedure, known ? page.count : 0);
    if (!none_handed_out(&past, &page))
        return wrong("an entry that is none is handed out");
    at += sprintf(at, kept ? " kept" : " spilled");
    end_line(line, at);
    return 0;
}

int desk_obeys(const char *word, const char *rest, struct lent *access_record, struct lent *component, struct lent *output, int *failed)
{
    if (strcmp(word, "send") == 0)
        *failed = sends(rest, access_record, output);
    else if (strcmp(word, "arrived") == 0)
        *failed = arrived(rest, access_record, component);
    else if (strcmp(word, "give-up") == 0 && *rest == '\0')
        *failed = gives_up(access_record);
    else if (strcmp(word, "shown") == 0)
        *failed = shown(rest, access_record);
    else
        return 0;
    return 1;
}
