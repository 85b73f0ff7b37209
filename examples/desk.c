/* A desk: it registers, cancels and asks at the exchange over a Unix socket, and shows its page, each procedure known or in doubt.
     desk SOCKET ACCESS FILE
   Its end's record stands in FILE, a fresh one where there is none. On standard input it takes a command a line:
     register PROCEDURE SERVICE DIGITS [SERVED]   forward to DIGITS; SERVICE 0 is all services; no SERVED: all numbers
     cancel PROCEDURE SERVICE [SERVED]
     ask PROCEDURE
     page */
#define _POSIX_C_SOURCE 200809L
#include <stdio.h>
#include <stdlib.h>
#include <string.h>
#include <unistd.h>
#include "access.h"
#include "path.h"

/* The most characters of a command. */
#define LINE_MOST 128

struct desk {
    int path;
    const char *file;
    uint8_t access[SCONCETOAD_ACCESS];
    struct sconcetoad_end end;
};

static const char *const procedures[] = {"cfu", "cfb", "cfnr"};

static int failed(const char *what)
{
    perror(what);
    return 0;
}

static int wrong(const char *what)
{
    fprintf(stderr, "desk: %s\n", what);
    return 0;
}

/* ---- the end's record in its file */

/* It is on the disk under another name before it takes its place: so the file holds one whole record or the other. */
static int keep_end(const struct desk *desk)
{
    char other[256];
    if (snprintf(other, sizeof other, "%s.next", desk->file) >= (int)sizeof other)
        return wrong("the name of the file is too long");
    FILE *file = fopen(other, "wb");
    if (!file)
        return failed(other);
    int kept = fwrite(&desk->end, sizeof desk->end, 1, file) == 1 && fflush(file) == 0 && fsync(fileno(file)) == 0;
    kept = fclose(file) == 0 && kept && rename(other, desk->file) == 0;
    return kept || failed(other);
}

static int load_end(struct desk *desk)
{
    FILE *file = fopen(desk->file, "rb");
    if (!file) {
        desk->end = sconcetoad_fresh_end();
        return 1;
    }
    int whole = fread(&desk->end, sizeof desk->end, 1, file) == 1;
    fclose(file);
    return whole || wrong("the file holds no end");
}

/* ---- the end and what it is told */

/* Takes the next end, unless the library refused: that ends the desk, for its record or its profile is bad. */
static int moved(struct desk *desk, uint8_t refusal, const struct sconcetoad_end *next)
{
    if (refusal != SCONCETOAD_ANSWERED) {
        fprintf(stderr, "desk: the end is refused: %d\n", refusal);
        return 0;
    }
    desk->end = *next;
    return keep_end(desk);
}

static int give_up(struct desk *desk)
{
    struct sconcetoad_moving moving = sconcetoad_give_up(desk->end, desk->access, sizeof desk->access);
    return moved(desk, moving.refusal, &moving.end);
}

static int take(struct desk *desk, const uint8_t *component, size_t length)
{
    struct sconcetoad_end next = desk->end;
    uint8_t refusal = sconcetoad_arrived(&next, desk->access, sizeof desk->access, component, length);
    return moved(desk, refusal, &next);
}

/* Says what closed the request: `before` is the end to which the reply came. */
static void say_reply(const struct sconcetoad_end *before, const uint8_t *reply, size_t length)
{
    struct sconcetoad_replied replied = sconcetoad_reply(reply, length, (int16_t)before->used, before->operation);
    printf("%d: ", before->used);
    if (replied.kind == SCONCETOAD_REPLY_FAILED)
        printf("error %d\n", replied.value);
    else
        puts(replied.kind == SCONCETOAD_REPLY_REJECTED ? "rejected" : replied.kind == SCONCETOAD_REPLY_WRONG ? "cannot be read" : "done");
}

/* Waits until the request is closed. What does not close it, a late reply for one, is dropped by the end. */
static int await(struct desk *desk)
{
    uint8_t reply[SCONCETOAD_COMPONENT + 1]; /* one octet more than the longest, so that one that is longer is refused */
    while (desk->end.outstanding) {
        size_t length = path_receive(desk->path, reply, sizeof reply);
        if (length == 0) {
            printf("%d: no answer\n", desk->end.used);
            return give_up(desk) && wrong("the exchange is gone");
        }
        struct sconcetoad_end before = desk->end;
        if (!take(desk, reply, length))
            return 0;
        if (!desk->end.outstanding)
            say_reply(&before, reply, length);
    }
    return 1;
}

/* The end that has sent is kept before its component leaves, so that no identifier is used twice. */
static int sent(struct desk *desk, const char *line, const struct sconcetoad_sending *sending, const uint8_t *component)
{
    if (sending->refusal != SCONCETOAD_ANSWERED) {
        printf("refused %d: %s\n", sending->refusal, line);
        return 1;
    }
    if (!moved(desk, sending->refusal, &sending->end))
        return 0;
    printf("%d: %s\n", desk->end.used, line);
    path_send(desk->path, component, sending->count); /* where the exchange is gone, nothing will come */
    return await(desk);
}

/* ---- the page */

static void show_number(const struct sconcetoad_number *number)
{
    if (number->form == 1)
        printf("p%d ", number->kind);
    printf("%.*s", number->count, (const char *)number->digits);
}

static void show_entry(const struct sconcetoad_entry *entry)
{
    printf("  ");
    show_number(&entry->served);
    printf(" %d to ", entry->service);
    show_number(&entry->address.number);
    for (int i = 0; i < entry->address.subcount; i++)
        printf("%s%02x", i == 0 ? " sub " : "", entry->address.sub[i]);
    putchar('\n');
}

static int show_procedure(const struct desk *desk, uint8_t procedure)
{
    struct sconcetoad_page page = sconcetoad_shown(desk->end, desk->access, sizeof desk->access, procedure);
    if (page.refusal != SCONCETOAD_ANSWERED) {
        fprintf(stderr, "desk: the page is refused: %d\n", page.refusal);
        return 0;
    }
    if (page.mark != SCONCETOAD_KNOWN) {
        printf("%s in doubt\n", procedures[procedure]);
        return 1;
    }
    printf("%s known, %zu forwarded\n", procedures[procedure], page.count);
    for (size_t place = 0; place < page.count; place++) {
        struct sconcetoad_page_entry shown = sconcetoad_entry(desk->end, desk->access, sizeof desk->access, procedure, place);
        show_entry(&shown.entry);
    }
    return 1;
}

static int show_page(const struct desk *desk)
{
    return show_procedure(desk, 0) && show_procedure(desk, 1) && show_procedure(desk, 2);
}

/* ---- the commands */

#define WORDS_MOST 5

/* The words of a line, each ended where it ends; there may be one more than a command has. */
static int words_of(char *line, const char **words)
{
    int count = 0;
    for (char *word = strtok(line, " "); word && count <= WORDS_MOST; word = strtok(NULL, " "))
        words[count++] = word;
    return count;
}

/* A code; what is none is 255, which the library refuses. */
static uint8_t procedure_from(const char *word)
{
    for (uint8_t i = 0; i < 3; i++)
        if (strcmp(word, procedures[i]) == 0)
            return i;
    return 255;
}

static uint8_t service_from(const char *word)
{
    char *rest;
    unsigned long code = strtoul(word, &rest, 10);
    return word[0] < '0' || word[0] > '9' || *rest || code > 255 ? 255 : (uint8_t)code;
}

/* Neither the digits nor how many they are is judged here: the library does. */
static void put_number(struct sconcetoad_number *number, const char *digits)
{
    size_t count = strlen(digits);
    number->count = (uint8_t)(count > 255 ? 255 : count);
    memcpy(number->digits, digits, count < sizeof number->digits ? count : sizeof number->digits);
}

static void put_served(struct sconcetoad_served *served, const char *digits)
{
    served->all = !digits;
    if (digits)
        put_number(&served->number, digits);
}

static int obey(struct desk *desk, const char *line)
{
    char copy[LINE_MOST];
    const char *words[WORDS_MOST + 1] = {""};
    uint8_t out[SCONCETOAD_OUTPUT];
    struct sconcetoad_request request;
    struct sconcetoad_sending sending;
    int count = words_of(strcpy(copy, line), words);
    memset(&request, 0, sizeof request);
    if (count == 1 && strcmp(words[0], "page") == 0)
        return show_page(desk);
    if (count >= 2)
        request.procedure = procedure_from(words[1]);
    if (count >= 3)
        request.service = service_from(words[2]);
    if ((count == 4 || count == 5) && strcmp(words[0], "register") == 0) {
        put_number(&request.to.address.number, words[3]);
        put_served(&request.served, words[4]);
        sending = sconcetoad_activate(desk->end, desk->access, sizeof desk->access, request, out, sizeof out);
    } else if ((count == 3 || count == 4) && strcmp(words[0], "cancel") == 0) {
        put_served(&request.served, words[3]);
        sending = sconcetoad_deactivate(desk->end, desk->access, sizeof desk->access, request, out, sizeof out);
    } else if (count == 2 && strcmp(words[0], "ask") == 0) {
        sending = sconcetoad_interrogate(desk->end, desk->access, sizeof desk->access, request.procedure, out, sizeof out);
    } else {
        return wrong("this is no command");
    }
    return sent(desk, line, &sending, out);
}

/* A request that an earlier run left outstanding is given up: the path that its answer would have come on is gone. */
static int begin(struct desk *desk, char **words)
{
    desk->file = words[3];
    if (!access_named(words[2], desk->access))
        return wrong("there is no such access");
    if (!load_end(desk) || (desk->end.outstanding && !give_up(desk)))
        return 0;
    desk->path = path_connect(words[1]);
    return desk->path >= 0 && path_send(desk->path, words[2], strlen(words[2]));
}

int main(int count, char **words)
{
    struct desk desk;
    char line[LINE_MOST];
    if (count != 4) {
        fprintf(stderr, "usage: desk SOCKET ACCESS FILE\n");
        return 2;
    }
    setvbuf(stdout, NULL, _IOLBF, BUFSIZ); /* what was said stands, whenever this program is killed */
    if (!begin(&desk, words))
        return 1;
    while (fgets(line, sizeof line, stdin)) {
        if (!strchr(line, '\n') && !feof(stdin)) {
            wrong("a command is too long");
            return 1;
        }
        line[strcspn(line, "\n")] = '\0';
        if (!obey(&desk, line))
            return 1;
    }
    return 0;
}
