/* The tables of all accesses in one SQLite file: a row for each access, with its name, its profile and its table. */
#ifndef STORE_H
#define STORE_H

#include <sqlite3.h>
#include "access.h"

struct row {
    char name[ACCESS_NAME_MOST + 1];
    uint8_t access[SCONCETOAD_ACCESS];
    struct sconcetoad_table table;
};

/* Each answers whether it was done; where it was not, why is said on standard error. */

/* Opens the file, or makes it. */
int store_open(const char *file, sqlite3 **store);

/* Adds the row unless there is one of that name. */
int store_add(sqlite3 *store, const struct row *row);

/* What is written between the two is kept whole or not at all. */
int store_begin(sqlite3 *store);
int store_commit(sqlite3 *store);

/* Drops what was written since store_begin, if anything was begun. */
void store_drop(sqlite3 *store);

/* Reads the row of that name. */
int store_read(sqlite3 *store, const char *name, struct row *row);

/* Writes the table of the row that is there. */
int store_write(sqlite3 *store, const struct row *row);

/* Hands over every row, by name, until `each` answers 0. */
int store_each(sqlite3 *store, int (*each)(const struct row *row));

#endif
