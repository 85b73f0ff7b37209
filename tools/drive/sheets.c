/* A table as a night sheet, and back. */
#include <string.h>
#include "drive.h"

static struct lent first, second;

/* Writes a sheet and lends it to be read; answers whether all was kept. */
static int written(struct sconcetoad_table table, struct lent *access_record, struct lent *sheet)
{
    sheet->size = SCONCETOAD_SHEET;
    lend(access_record);
    lend_filled(sheet);
    struct sconcetoad_octets answer =
        sconcetoad_write_sheet(table, lent_octets(access_record), access_record->size, lent_octets(sheet), sheet->size);
    if (answer.refusal != SCONCETOAD_ANSWERED || answer.count > sheet->size)
        return 0;
    int kept = came_back(access_record, 0) && came_back(sheet, answer.count);
    sheet->size = answer.count;
    return kept;
}

int comes_back(const struct sconcetoad_table *table, struct lent *access_record)
{
    if (!written(*table, access_record, &first))
        return 0;
    lend(access_record);
    lend(&first);
    struct sconcetoad_sheet_taken taken =
        sconcetoad_read_sheet(lent_octets(access_record), access_record->size, lent_octets(&first), first.size);
    if (taken.refusal != SCONCETOAD_ANSWERED || !came_back(access_record, 0) || !came_back(&first, 0))
        return 0;
    return taken.table.last == table->last && written(taken.table, access_record, &second) &&
           second.size == first.size && memcmp(lent_octets(&second), lent_octets(&first), first.size) == 0;
}
