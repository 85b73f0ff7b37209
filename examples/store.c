/* Rows of a SQLite file. A table stands there as the machine has it, SCONCETOAD_TABLE octets; the library judges it at each arrival. */
#include "store.h"
#include <stdio.h>
#include <string.h>

static int failed(sqlite3 *store)
{
    fprintf(stderr, "exchange: the store: %s\n", sqlite3_errmsg(store));
    return 0;
}

static int run(sqlite3 *store, const char *statement)
{
    return sqlite3_exec(store, statement, NULL, NULL, NULL) == SQLITE_OK || failed(store);
}

int store_open(const char *file, sqlite3 **store)
{
    if (sqlite3_open(file, store) != SQLITE_OK)
        return failed(*store);
    sqlite3_busy_timeout(*store, 1000);
    return run(*store, "CREATE TABLE IF NOT EXISTS accesses (name TEXT PRIMARY KEY, profile BLOB NOT NULL, held BLOB NOT NULL)");
}

int store_begin(sqlite3 *store)
{
    return run(store, "BEGIN IMMEDIATE");
}

int store_commit(sqlite3 *store)
{
    return run(store, "COMMIT");
}

void store_drop(sqlite3 *store)
{
    if (!sqlite3_get_autocommit(store))
        run(store, "ROLLBACK");
}

static int bind_table(sqlite3_stmt *statement, int place, const struct row *row)
{
    return sqlite3_bind_blob(statement, place, &row->table, sizeof row->table, SQLITE_STATIC) == SQLITE_OK;
}

static int bind_name(sqlite3_stmt *statement, int place, const char *name)
{
    return sqlite3_bind_text(statement, place, name, -1, SQLITE_STATIC) == SQLITE_OK;
}

/* Runs and ends a statement that writes. */
static int done(sqlite3 *store, sqlite3_stmt *statement, int bound)
{
    int wrote = bound && sqlite3_step(statement) == SQLITE_DONE;
    return sqlite3_finalize(statement) == SQLITE_OK && wrote ? 1 : failed(store);
}

int store_add(sqlite3 *store, const struct row *row)
{
    sqlite3_stmt *statement;
    if (sqlite3_prepare_v2(store, "INSERT OR IGNORE INTO accesses VALUES (?, ?, ?)", -1, &statement, NULL) != SQLITE_OK)
        return failed(store);
    int bound = bind_name(statement, 1, row->name) && bind_table(statement, 3, row) &&
                sqlite3_bind_blob(statement, 2, row->access, sizeof row->access, SQLITE_STATIC) == SQLITE_OK;
    return done(store, statement, bound);
}

int store_write(sqlite3 *store, const struct row *row)
{
    sqlite3_stmt *statement;
    if (sqlite3_prepare_v2(store, "UPDATE accesses SET held = ? WHERE name = ?", -1, &statement, NULL) != SQLITE_OK)
        return failed(store);
    if (!done(store, statement, bind_table(statement, 1, row) && bind_name(statement, 2, row->name)))
        return 0;
    if (sqlite3_changes(store) == 1)
        return 1;
    fprintf(stderr, "exchange: the store has no row of %s\n", row->name);
    return 0;
}

static int blob_of(sqlite3_stmt *statement, int column, void *octets, size_t size)
{
    const void *blob = sqlite3_column_blob(statement, column);
    if (!blob || (size_t)sqlite3_column_bytes(statement, column) != size)
        return 0;
    memcpy(octets, blob, size);
    return 1;
}

/* The row that the statement stands at: name, profile, table. */
static int row_of(sqlite3_stmt *statement, struct row *row)
{
    const unsigned char *name = sqlite3_column_text(statement, 0);
    if (!name || strlen((const char *)name) > ACCESS_NAME_MOST)
        return 0;
    memset(row->name, 0, sizeof row->name);
    memcpy(row->name, name, strlen((const char *)name));
    return blob_of(statement, 1, row->access, sizeof row->access) && blob_of(statement, 2, &row->table, sizeof row->table);
}

int store_read(sqlite3 *store, const char *name, struct row *row)
{
    sqlite3_stmt *statement;
    if (sqlite3_prepare_v2(store, "SELECT name, profile, held FROM accesses WHERE name = ?", -1, &statement, NULL) != SQLITE_OK)
        return failed(store);
    int found = bind_name(statement, 1, name) && sqlite3_step(statement) == SQLITE_ROW && row_of(statement, row);
    sqlite3_finalize(statement);
    if (!found)
        fprintf(stderr, "exchange: the store has no good row of %s\n", name);
    return found;
}

int store_each(sqlite3 *store, int (*each)(const struct row *row))
{
    sqlite3_stmt *statement;
    struct row row;
    int step, good = 1;
    if (sqlite3_prepare_v2(store, "SELECT name, profile, held FROM accesses ORDER BY name", -1, &statement, NULL) != SQLITE_OK)
        return failed(store);
    while (good && (step = sqlite3_step(statement)) != SQLITE_DONE)
        good = step == SQLITE_ROW && row_of(statement, &row) && each(&row);
    sqlite3_finalize(statement);
    return good;
}
