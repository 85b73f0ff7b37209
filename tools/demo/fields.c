/* Octets with the names of their fields. */
#include <stdio.h>
#include "demo.h"

/* So many octets, as deep as they stand; in the name, # is the value of the last of them, and @ the digits, which are the last `digits`. */
struct field {
    size_t count;
    int depth;
    size_t digits;
    const char *name;
};

#define NAMED(fields) fields, sizeof fields / sizeof fields[0]
#define NAMES_AT 36

/* A component has digits as characters, a night sheet as numbers. */
static void say_digits(const uint8_t *at, size_t count)
{
    for (size_t i = 0; i < count; i++)
        putchar(at[i] < 10 ? '0' + at[i] : at[i]);
}

static void say_name(const struct field *field, const uint8_t *stop)
{
    for (const char *c = field->name; *c; c++) {
        if (*c == '#')
            printf("%d", stop[-1]);
        else if (*c == '@')
            say_digits(stop - field->digits, field->digits);
        else
            putchar(*c);
    }
    putchar('\n');
}

static void tell_fields(const struct octets *octets, const struct field *fields, size_t count)
{
    size_t at = 0;
    for (size_t f = 0; f < count; f++) {
        int column = printf("    %*s", 2 * fields[f].depth, "");
        must(at + fields[f].count <= octets->count, "a field has too few octets");
        for (size_t i = 0; i < fields[f].count; i++)
            column += printf("%02X ", octets->at[at++]);
        printf("%*s", NAMES_AT - column, "");
        say_name(&fields[f], octets->at + at);
    }
    must(at == octets->count, "octets are left over");
}

void tell_registration(const struct octets *component)
{
    static const struct field fields[] = {
        {2, 0, 0, "invoke component, # octets"},
        {3, 1, 0, "identifier #"},
        {3, 1, 0, "operation #, activation"},
        {2, 1, 0, "argument, # octets"},
        {3, 2, 0, "procedure #, cfu: call forwarding unconditional"},
        {3, 2, 0, "basic service #, speech"},
        {2, 2, 0, "forwarded-to address, # octets"},
        {7, 3, 5, "number of unknown form, @"},
        {2, 2, 0, "served number: all numbers of the access"},
    };
    tell_fields(component, NAMED(fields));
}

void tell_result(const struct octets *component)
{
    static const struct field fields[] = {
        {2, 0, 0, "return result component, # octets"},
        {3, 1, 0, "identifier #: it is done"},
    };
    tell_fields(component, NAMED(fields));
}

void tell_list_of_one(const struct octets *component)
{
    static const struct field fields[] = {
        {2, 0, 0, "return result component, # octets"},
        {3, 1, 0, "identifier #"},
        {2, 1, 0, "result, # octets"},
        {3, 2, 0, "operation #, interrogation"},
        {2, 2, 0, "list of active instances, # octets"},
        {2, 3, 0, "an instance, # octets"},
        {7, 4, 5, "served number, @"},
        {3, 4, 0, "basic service #, speech"},
        {3, 4, 0, "procedure #, cfu"},
        {2, 4, 0, "forwarded-to address, # octets"},
        {7, 5, 5, "number of unknown form, @"},
    };
    tell_fields(component, NAMED(fields));
}

void tell_sheet_of_one(const struct octets *sheet)
{
    static const struct field fields[] = {
        {1, 0, 0, "form #"},
        {1, 0, 0, "last handled identifier #"},
        {1, 0, 0, "instances: #"},
        {1, 1, 0, "procedure #, cfb: call forwarding busy"},
        {1, 1, 0, "number index #, the profile's first"},
        {1, 1, 0, "basic service #, speech"},
        {2, 1, 0, "unknown form, and so type #"},
        {6, 1, 5, "digits @, behind their count"},
        {1, 1, 0, "subaddress length #: none"},
    };
    tell_fields(sheet, NAMED(fields));
}

void tell_octets(const char *what, const struct octets *octets)
{
    printf("    %-9s", what);
    for (size_t i = 0; i < octets->count; i++)
        printf(" %02X", octets->at[i]);
    putchar('\n');
}
