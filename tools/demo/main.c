/* Plays the story end to end: a day of a wholesaler's access. */
#include <stdio.h>
#include <string.h>
#include "demo.h"

#define CFU 0
#define CFB 1
#define TO "24680"

static void profile_told(void)
{
    puts("A day of a wholesaler's access. The end at its desk and the exchange are the library's; the path");
    puts("between them is played. Its profile, as ./sconcetoad profile takes it:\n");
    for (const char *line = wholesaler; *line; line = strchr(line, '\n') + 1)
        printf("    %.*s\n", (int)strcspn(line, "\n"), line);
}

static void registration(void)
{
    puts("\n1. The desk registers call forwarding unconditional, for speech, to " TO ". Its end sends:\n");
    struct octets request = desk_registers(CFU, TO);
    tell_registration(&request);
    puts("\n   Until it is answered nobody at the desk can know whether it was done:");
    tell_page();
    puts("\n   The exchange does it, and replies:\n");
    struct octets reply = exchange_answers(&request);
    tell_result(&reply);
    desk_takes(&reply);
    tell_page();
}

static void calls(void)
{
    puts("\n2. Calls of speech come for 13579. The exchange looks into its table:");
    tell_calls();
}

static void interrogation(void)
{
    puts("\n3. The desk interrogates. What it sends, and the exchange's reply:\n");
    struct octets request = desk_asks(CFU);
    tell_octets("request", &request);
    puts("");
    struct octets reply = exchange_answers(&request);
    tell_list_of_one(&reply);
    desk_takes(&reply);
    tell_page();
}

static void lost_reply(void)
{
    puts("\n4. The desk deactivates. The exchange does so, but its reply is lost:\n");
    struct octets request = desk_cancels(CFU);
    tell_octets("request", &request);
    struct octets lost = exchange_answers(&request);
    tell_octets("lost", &lost);
    tell_page();
    puts("\n   In doubt is not \"no forwarding\": calls may still go to " TO " and may not, and the page says");
    puts("   neither. What helps is to ask again; but while a request is outstanding the end sends no other.\n");
    printf("    asked now: refusal %d, a request is outstanding\n", desk_refuses(CFU));
    puts("\n   So the desk gives up waiting. That closes the request, and makes nothing known:");
    desk_gives_up();
    tell_page();
}

static void asked_again(void)
{
    puts("\n5. The desk asks again, and this reply arrives. It is a list, and empty; only that makes it known:\n");
    struct octets request = desk_asks(CFU);
    tell_octets("request", &request);
    struct octets reply = exchange_answers(&request);
    tell_octets("reply", &reply);
    desk_takes(&reply);
    tell_page();
}

static void listing(const struct octets *sheet)
{
    uint8_t text[SCONCETOAD_LISTING];
    struct sconcetoad_octets listed = sconcetoad_list_sheet(sheet->at, sheet->count, text, sizeof text);
    must(listed.refusal == SCONCETOAD_ANSWERED, "the night sheet is not listed");
    const char *line = (const char *)text, *stop = line + listed.count;
    while (line < stop) {
        const char *next = (const char *)memchr(line, '\n', (size_t)(stop - line));
        must(next != NULL, "a line of the listing has no end");
        printf("    %.*s\n", (int)(next - line), line);
        line = next + 1;
    }
}

static void night(void)
{
    puts("\n6. For the night the desk forwards calls that meet busy to " TO ":\n");
    struct octets request = desk_registers(CFB, TO);
    tell_octets("request", &request);
    struct octets reply = exchange_answers(&request);
    tell_octets("reply", &reply);
    desk_takes(&reply);
    tell_page();
    puts("\n   The exchange writes its table as a night sheet:\n");
    struct octets sheet = exchange_sheet();
    tell_sheet_of_one(&sheet);
    puts("\n   and ./sconcetoad list prints of that sheet:\n");
    listing(&sheet);
}

int main(void)
{
    office_opens();
    profile_told();
    registration();
    calls();
    interrogation();
    lost_reply();
    asked_again();
    night();
    return fflush(stdout) == EOF;
}
