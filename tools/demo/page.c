/* The page at the desk. */
#include <stdio.h>
#include "demo.h"

const char *procedure_name(int procedure)
{
    static const char *const names[] = {"cfu", "cfb", "cfnr"};
    must(procedure >= 0 && procedure < 3, "there is no such procedure");
    return names[procedure];
}

static void tell_entry(const struct sconcetoad_entry *entry)
{
    const struct sconcetoad_number *from = &entry->served, *to = &entry->address.number;
    printf(", service %d of %.*s goes to %.*s", entry->service, from->count, (const char *)from->digits, to->count,
           (const char *)to->digits);
}

/* A count, and so "no forwarding", there is only beside a mark that says known. */
void tell_page(void)
{
    printf("\n");
    for (uint8_t procedure = 0; procedure < 3; procedure++) {
        struct sconcetoad_page page = desk_page(procedure);
        int known = page.mark == SCONCETOAD_KNOWN;
        printf("    page: %-4s  %s", procedure_name(procedure), known ? "known" : "IN DOUBT");
        if (known && page.count == 0)
            printf(", no forwarding");
        for (size_t place = 0; known && place < page.count; place++) {
            struct sconcetoad_entry entry = desk_entry(procedure, place);
            tell_entry(&entry);
        }
        printf("\n");
    }
}
