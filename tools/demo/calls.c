/* Calls for the wholesaler. */
#include <stdio.h>
#include "demo.h"

/* Call records (docs/RECORDS.md): number, service, event, counter, option, presentation, preference; and, of a call that was diverted
   before, the original number 97531. */
static const struct call {
    const char *what;
    uint8_t record[SCONCETOAD_CALL];
} calls[] = {
    {"a first diversion", {0, 1, 0, 0, 0, 0, 1, 0}},
    {"diverted before, chain's option 1", {0, 1, 0, 1, 1, 1, 1, 5, '9', '7', '5', '3', '1'}},
    {"diverted before, chain's option 0", {0, 1, 0, 1, 0, 1, 1, 5, '9', '7', '5', '3', '1'}},
    {"diverted five times before", {0, 1, 0, 5, 2, 1, 1, 5, '9', '7', '5', '3', '1'}},
    {"met busy, so that cfb is asked", {0, 1, 1, 0, 0, 0, 1, 0}},
};

static void tell_notice(const struct sconcetoad_diversion *diversion)
{
    const struct sconcetoad_number *noticed = &diversion->call.noticed;
    switch (diversion->notice) {
    case 0: printf("nothing\n"); break;
    case 1: printf("call is diverting\n"); break;
    case 2: printf("call is diverting, to %.*s\n", noticed->count, (const char *)noticed->digits); break;
    default: must(0, "there is no such notice");
    }
}

/* Reasons are one more than procedures. */
static void tell_call(const struct call *call)
{
    struct sconcetoad_diversion diversion = exchange_diverts(call->record);
    const struct sconcetoad_number *called = &diversion.call.called.number;
    printf("    %-35s", call->what);
    if (diversion.refusal == SCONCETOAD_LIMIT_REACHED) {
        printf("refusal %d: diversion limit reached\n", diversion.refusal);
        return;
    }
    must(diversion.refusal == SCONCETOAD_ANSWERED, "a call is refused");
    if (diversion.reason == 0) {
        printf("not diverted\n");
        return;
    }
    printf("%d %-5s  %-7d  %-9.*s", diversion.reason, procedure_name(diversion.reason - 1), diversion.call.counter, called->count,
           (const char *)called->digits);
    tell_notice(&diversion);
}

void tell_calls(void)
{
    printf("\n    %-35s%-7s  %-7s  %-9s%s\n", "the call", "reason", "counter", "goes to", "its caller is told");
    for (size_t i = 0; i < sizeof calls / sizeof calls[0]; i++)
        tell_call(&calls[i]);
}
