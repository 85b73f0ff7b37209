/* Numbers, addresses and runs of instances that obey the rules. */
#include <string.h>
#include "fuzz.h"

struct sconcetoad_number make_number(void)
{
    static const uint8_t types[] = {0, 1, 2, 3, 4, 6};
    struct sconcetoad_number number;
    memset(&number, 0, sizeof number);
    number.form = (uint8_t)below(2);
    number.kind = number.form == 1 ? types[below(sizeof types)] : 0;
    number.count = (uint8_t)(1 + (one_in(4) ? below(20) : below(5)));
    for (int i = 0; i < number.count; i++)
        number.digits[i] = (uint8_t)('0' + below(10));
    return number;
}

struct sconcetoad_address make_address(void)
{
    struct sconcetoad_address address;
    memset(&address, 0, sizeof address);
    address.number = make_number();
    address.subcount = (uint8_t)(one_in(4) ? 1 + below(20) : 0);
    for (int i = 0; i < address.subcount; i++)
        address.sub[i] = (uint8_t)below(256);
    return address;
}

/* The instances of one procedure: each place in the profile with a chance, up to 8. */
static void add_instances(struct sconcetoad_run *run, int procedure, unsigned chance)
{
    const uint8_t *services = world.profile + ACCESS_SERVICECOUNT;
    int count = 0;
    for (int number = 0; number < world.profile[0]; number++)
        for (int service = 1; service <= services[0]; service++)
            if (count < SCONCETOAD_ENTRIES && one_in(chance)) {
                struct sconcetoad_instance *instance = &run->run[run->count++];
                instance->procedure = (uint8_t)procedure;
                instance->number = (uint8_t)number;
                instance->service = services[service];
                instance->address = make_address();
                count++;
            }
}

struct sconcetoad_run make_run(void)
{
    struct sconcetoad_run run;
    memset(&run, 0, sizeof run);
    for (int procedure = 0; procedure < 3; procedure++)
        if (world.profile[ACCESS_SUBSCRIBED + procedure])
            add_instances(&run, procedure, 1 + below(6));
    return run;
}
