/* The accesses that desk and exchange know. Provisioning is left to others (document 01, "Parts"): here they are made by hand. */
#ifndef ACCESS_H
#define ACCESS_H

#include <stddef.h>
#include "sconcetoad.h"

/* The most characters of an access's name. */
#define ACCESS_NAME_MOST 31

/* The name of the access at the place `place`, from 0 on, or NULL where there is none. */
const char *access_name(size_t place);

/* Answers whether there is such an access; `record` becomes the SCONCETOAD_ACCESS octets of its profile. */
int access_named(const char *name, uint8_t *record);

#endif
