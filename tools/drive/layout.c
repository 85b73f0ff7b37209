/* The size of every record, and where each of its fields stands and how long it is: the figures of docs/RECORDS.md. Nothing runs. */
#include <assert.h>
#include "drive.h"

#define RECORD(record, size) static_assert(sizeof(struct sconcetoad_##record) == (size), #record)
#define FIELD(record, field, at, size)                                                                                              \
    static_assert(offsetof(struct sconcetoad_##record, field) == (at) && sizeof(((struct sconcetoad_##record *)0)->field) == (size), \
                  #record "." #field)

/* A name for one of document 01's numbers, or for a bound. */
#define NAMED(name, number) static_assert(SCONCETOAD_##name == (number), #name)

NAMED(STACK, 12000);
NAMED(CFU, 0);
NAMED(CFB, 1);
NAMED(CFNR, 2);
NAMED(ACTIVATION, 7);
NAMED(DEACTIVATION, 8);
NAMED(INTERROGATION, 11);
NAMED(ALL_SERVICES, 0);
NAMED(SPEECH, 1);
NAMED(UNKNOWN, 0);
NAMED(PUBLIC, 1);
NAMED(OTHER_KIND, 2);
NAMED(OFFERED, 0);
NAMED(BUSY, 1);
NAMED(NO_REPLY, 2);
NAMED(NOT_DIVERTED, 0);
NAMED(REASON_CFU, 1);
NAMED(REASON_CFB, 2);
NAMED(REASON_CFNR, 3);
NAMED(NOTICE_NONE, 0);
NAMED(NOTICE_DIVERTING, 1);
NAMED(NOTICE_NUMBER, 2);
NAMED(ERROR_NOT_SUBSCRIBED, 0);
NAMED(ERROR_NOT_IN_USE, 3);
NAMED(ERROR_SERVED_NUMBER, 6);
NAMED(ERROR_SERVICE, 8);
NAMED(ERROR_RESOURCE, 11);
NAMED(ERROR_NUMBER, 12);
NAMED(ERROR_SPECIAL_NUMBER, 14);
NAMED(ERROR_OWN_NUMBER, 15);
NAMED(ERROR_NOT_ACTIVE, 46);

RECORD(number, 23);
FIELD(number, form, 0, 1);
FIELD(number, kind, 1, 1);
FIELD(number, count, 2, 1);
FIELD(number, digits, 3, 20);

RECORD(address, 44);
FIELD(address, number, 0, 23);
FIELD(address, subcount, 23, 1);
FIELD(address, sub, 24, 20);

RECORD(forwarded, 45);
FIELD(forwarded, address, 0, 44);
FIELD(forwarded, user, 44, 1);

RECORD(served, 24);
FIELD(served, all, 0, 1);
FIELD(served, number, 1, 23);

RECORD(request, 71);
FIELD(request, procedure, 0, 1);
FIELD(request, service, 1, 1);
FIELD(request, served, 2, 24);
FIELD(request, to, 26, 45);

RECORD(said, 78);
FIELD(said, row, 0, 1);
FIELD(said, asks, 1, 1);
FIELD(said, identifier, 2, 2);
FIELD(said, operation, 4, 2);
FIELD(said, request, 6, 71);

RECORD(entry, 69);
FIELD(entry, served, 0, 23);
FIELD(entry, service, 23, 1);
FIELD(entry, procedure, 24, 1);
FIELD(entry, address, 25, 44);

RECORD(entries, 553);
FIELD(entries, count, 0, 1);
FIELD(entries, entries, 1, 8 * 69);

RECORD(replied, 558);
FIELD(replied, kind, 0, 1);
FIELD(replied, value, 2, 2);
FIELD(replied, list, 4, 553);

RECORD(prefix, 21);
FIELD(prefix, count, 0, 1);
FIELD(prefix, digits, 1, 20);

RECORD(access, SCONCETOAD_ACCESS);
FIELD(access, numbercount, 0, 1);
FIELD(access, numbers, 1, 4 * 23);
FIELD(access, servicecount, 93, 1);
FIELD(access, services, 94, 6);
FIELD(access, subscribed, 100, 3);
FIELD(access, msn, 103, 1);
FIELD(access, all, 104, 1);
FIELD(access, inuse, 105, 1);
FIELD(access, counted, 106, 1);
FIELD(access, option, 107, 1);
FIELD(access, release, 108, 1);
FIELD(access, limit, 109, 1);
FIELD(access, prefixcount, 110, 1);
FIELD(access, prefixes, 111, 16 * 21);

RECORD(call, SCONCETOAD_CALL);
FIELD(call, number, 0, 1);
FIELD(call, service, 1, 1);
FIELD(call, event, 2, 1);
FIELD(call, counter, 3, 1);
FIELD(call, option, 4, 1);
FIELD(call, presentation, 5, 1);
FIELD(call, preference, 6, 1);
FIELD(call, count, 7, 1);
FIELD(call, digits, 8, 20);

RECORD(instance, 47);
FIELD(instance, procedure, 0, 1);
FIELD(instance, number, 1, 1);
FIELD(instance, service, 2, 1);
FIELD(instance, address, 3, 44);

RECORD(run, 1129);
FIELD(run, count, 0, 1);
FIELD(run, run, 1, 24 * 47);

RECORD(table, SCONCETOAD_TABLE);
RECORD(table, 1132);
FIELD(table, last, 0, 2);
FIELD(table, run, 2, 1129);

RECORD(arrival, 1152);
FIELD(arrival, refusal, 0, 1);
FIELD(arrival, count, 8, 8);
FIELD(arrival, table, 16, 1132);

RECORD(end, 1208);
FIELD(end, used, 0, 2);
FIELD(end, outstanding, 2, 1);
FIELD(end, operation, 3, 1);
FIELD(end, before, 4, 1);
FIELD(end, request, 5, 71);
FIELD(end, marks, 76, 3);
FIELD(end, picture, 79, 1129);

RECORD(sending, 1224);
FIELD(sending, refusal, 0, 1);
FIELD(sending, count, 8, 8);
FIELD(sending, end, 16, 1208);

RECORD(moving, 1210);
FIELD(moving, refusal, 0, 1);
FIELD(moving, end, 2, 1208);

RECORD(page, 16);
FIELD(page, refusal, 0, 1);
FIELD(page, mark, 1, 1);
FIELD(page, count, 8, 8);

RECORD(page_entry, 88);
FIELD(page_entry, page, 0, 16);
FIELD(page_entry, entry, 16, 69);

RECORD(onward, 95);
FIELD(onward, counter, 0, 1);
FIELD(onward, called, 1, 44);
FIELD(onward, redirecting, 45, 23);
FIELD(onward, redirectingshown, 68, 1);
FIELD(onward, originalshown, 69, 1);
FIELD(onward, preference, 70, 1);
FIELD(onward, option, 71, 1);
FIELD(onward, noticed, 72, 23);

RECORD(diversion, 98);
FIELD(diversion, refusal, 0, 1);
FIELD(diversion, reason, 1, 1);
FIELD(diversion, notice, 2, 1);
FIELD(diversion, call, 3, 95);

RECORD(octets, 16);
FIELD(octets, refusal, 0, 1);
FIELD(octets, count, 8, 8);

RECORD(handed_on, 24);
FIELD(handed_on, refusal, 0, 1);
FIELD(handed_on, reason, 1, 1);
FIELD(handed_on, length, 8, 8);
FIELD(handed_on, count, 16, 8);

RECORD(sheet_taken, 1134);
FIELD(sheet_taken, refusal, 0, 1);
FIELD(sheet_taken, table, 2, 1132);
