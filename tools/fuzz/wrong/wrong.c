/* The library with one thing wrong, which WRONG names: for tools/test-fuzz, which links it with --wrap. */
#include <stdlib.h>
#include <string.h>
#include "../fuzz.h"

static int is(const char *name)
{
    static const char *wrong;
    if (!wrong)
        wrong = getenv("WRONG") ? getenv("WRONG") : "";
    return strcmp(wrong, name) == 0;
}

#define WRAPPED(answer, name, parameters) \
    answer __real_sconcetoad_##name parameters; \
    answer __wrap_sconcetoad_##name parameters

WRAPPED(struct sconcetoad_arrival, arrive, (struct sconcetoad_table table, const uint8_t *access, size_t access_length,
        const uint8_t *component, size_t component_length, uint8_t *out, size_t out_length))
{
    struct sconcetoad_arrival answer = __real_sconcetoad_arrive(table, access, access_length, component, component_length, out, out_length);
    int refused = answer.refusal != SCONCETOAD_ANSWERED;
    int rejects = answer.count > 0 && out[0] == 0xA4;
    if (is("refusal-writes") && refused && out_length > 0)
        out[0] ^= 1;
    if (is("writes-after-the-reply") && answer.count < out_length)
        out[answer.count] ^= 1;
    if (is("writes-before-the-output") && answer.count > 0)
        out[-1] ^= 1;
    if (is("writes-past-the-output"))
        out[out_length] ^= 1;
    if (is("reads-past-the-component") && ((const volatile uint8_t *)component)[component_length] == 1)
        answer.count = 0;
    if (is("alters-the-component") && component_length > 0)
        ((uint8_t *)component)[component_length - 1] ^= 1;
    if (is("alters-the-profile") && access_length > 0)
        ((uint8_t *)access)[0] ^= 1;
    if (is("refusal-eleven") && refused)
        answer.refusal = 11;
    if (is("refusal-alters") && refused)
        answer.table.last ^= 1;
    if (is("reject-alters") && rejects)
        answer.table.run = sconcetoad_fresh_table().run;
    if (is("reject-moves-the-identifier") && rejects)
        answer.table.last++;
    if (is("next-table-bad") && answer.count == 5 && answer.table.run.count > 1)
        answer.table.run.run[1] = answer.table.run.run[0];
    if (is("never-returns") && component_length == 30)
        for (volatile int turns = 0;; turns = 1 - turns)
            ;
    return answer;
}

WRAPPED(struct sconcetoad_replied, reply, (const uint8_t *component, size_t length, int16_t identifier, uint8_t operation))
{
    struct sconcetoad_replied answer = __real_sconcetoad_reply(component, length, identifier, operation);
    if (is("no-list-as-empty") && answer.kind != SCONCETOAD_REPLY_LISTED)
        answer.list.count = 0;
    return answer;
}

WRAPPED(struct sconcetoad_octets, put_list, (uint8_t *out, size_t length, int16_t identifier, struct sconcetoad_entries list))
{
    struct sconcetoad_octets answer = __real_sconcetoad_put_list(out, length, identifier, list);
    if (is("list-without-room-writes") && answer.refusal == SCONCETOAD_SHORT_OUTPUT && length > 0)
        out[length - 1] ^= 1;
    return answer;
}

WRAPPED(struct sconcetoad_octets, put_request, (uint8_t *out, size_t length, int16_t identifier, uint8_t operation,
        struct sconcetoad_request request))
{
    struct sconcetoad_octets answer = __real_sconcetoad_put_request(out, length, identifier, operation, request);
    if (is("request-of-another-procedure") && answer.count > 0)
        out[answer.count - 1] ^= 1;
    return answer;
}

WRAPPED(struct sconcetoad_diversion, divert, (struct sconcetoad_table table, const uint8_t *access, size_t access_length, const uint8_t *call,
        size_t call_length))
{
    struct sconcetoad_diversion answer = __real_sconcetoad_divert(table, access, access_length, call, call_length);
    if (is("counter-stays") && answer.reason != 0)
        answer.call.counter--;
    if (is("refused-call-goes-on") && answer.refusal == SCONCETOAD_LIMIT_REACHED)
        answer.call.counter = call[3];
    return answer;
}

WRAPPED(struct sconcetoad_sheet_taken, read_sheet, (const uint8_t *access, size_t access_length, const uint8_t *sheet, size_t sheet_length))
{
    struct sconcetoad_sheet_taken answer = __real_sconcetoad_read_sheet(access, access_length, sheet, sheet_length);
    if (is("refused-sheet-as-table") && answer.refusal != SCONCETOAD_ANSWERED)
        answer.table.run.count = 1;
    return answer;
}

WRAPPED(struct sconcetoad_sending, activate, (struct sconcetoad_end end, const uint8_t *access, size_t access_length,
        struct sconcetoad_request request, uint8_t *out, size_t out_length))
{
    struct sconcetoad_sending answer = __real_sconcetoad_activate(end, access, access_length, request, out, out_length);
    if (is("identifier-twice") && answer.refusal == SCONCETOAD_ANSWERED)
        answer.end.used = end.used;
    return answer;
}

WRAPPED(struct sconcetoad_moving, give_up, (struct sconcetoad_end end, const uint8_t *access, size_t access_length))
{
    struct sconcetoad_moving answer = __real_sconcetoad_give_up(end, access, access_length);
    if (is("given-up-as-known") && answer.refusal == SCONCETOAD_ANSWERED && end.outstanding)
        answer.end.marks[end.request.procedure] = SCONCETOAD_KNOWN;
    return answer;
}

WRAPPED(struct sconcetoad_page, shown, (struct sconcetoad_end end, const uint8_t *access, size_t access_length, uint8_t procedure))
{
    struct sconcetoad_page answer = __real_sconcetoad_shown(end, access, access_length, procedure);
    if (is("doubt-as-empty") && answer.mark == SCONCETOAD_DOUBT)
        answer.count = 0;
    return answer;
}
