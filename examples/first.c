/* A profile made by hand; an activation arrives at the exchange; a call that meets busy is diverted by it. docs/RECORDS.md has the records. Ends
   with the number of the refusal, if there is one. */
#include <stdio.h>
#include "sconcetoad.h"

/* One number, 13579 of unknown form; speech; cfb alone; no MSN, no "all numbers", in use, counted; option 2, own number released, limit 5. */
static const struct sconcetoad_access profile = {
    1, {{SCONCETOAD_UNKNOWN, 0, 5, "13579"}}, 1, {SCONCETOAD_SPEECH}, {0, 1, 0}, 0, 0, 1, 1, 2, 1, 5, 0, {{0, {0}}}};

/* Document 01's sample: activate cfb for speech to 24680, all numbers. */
static const uint8_t activation[] = {0xA1, 0x19, 0x02, 0x01, 0x02, 0x02, 0x01, 0x07, 0x30, 0x11, 0x0A, 0x01, 0x01, 0x0A,
                                     0x01, 0x01, 0x30, 0x07, 0x80, 0x05, 0x32, 0x34, 0x36, 0x38, 0x30, 0x05, 0x00};

/* For the profile's first number, speech, met busy, not diverted before. */
static const struct sconcetoad_call busy = {0, SCONCETOAD_SPEECH, SCONCETOAD_BUSY, 0, 0, 0, 0, 0, {0}};

int main(void)
{
    const uint8_t *access = (const uint8_t *)&profile, *call = (const uint8_t *)&busy;
    uint8_t out[SCONCETOAD_OUTPUT], digits[SCONCETOAD_DIGITS];
    struct sconcetoad_arrival arrival =
        sconcetoad_arrive(sconcetoad_fresh_table(), access, sizeof profile, activation, sizeof activation, out, sizeof out);
    if (arrival.refusal != SCONCETOAD_ANSWERED)
        return arrival.refusal;
    printf("reply:");
    for (size_t i = 0; i < arrival.count; i++)
        printf(" %02X", out[i]);
    printf("\nlast handled %d, instances %d\n", arrival.table.last, arrival.table.run.count);

    struct sconcetoad_diversion diversion = sconcetoad_divert(arrival.table, access, sizeof profile, call, sizeof busy);
    if (diversion.reason == SCONCETOAD_NOT_DIVERTED)
        return diversion.refusal;
    const struct sconcetoad_number *to = &diversion.call.called.number;
    printf("diverted to %.*s: reason %d, counter %d, notice %d\n", to->count, (const char *)to->digits, diversion.reason,
           diversion.call.counter, diversion.notice);
    struct sconcetoad_handed_on original =
        sconcetoad_original(arrival.table, access, sizeof profile, call, sizeof busy, digits, sizeof digits);
    printf("original %.*s, %s\n", (int)original.count, (const char *)digits, diversion.call.originalshown ? "shown" : "not shown");
    return 0;
}
