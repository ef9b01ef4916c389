/* Has a record answered, with the chart of a LOAD from a folder: chart0 to chart4. */
#include "test.h"

enum { MOST_PATH = 1024 };

FILE *open_in(const char *folder, const char *name)
{
    char path[MOST_PATH];
    snprintf(path, sizeof path, "%s/%s", folder, name);
    return fopen(path, "rb");
}

/* A missing file is an empty chart. */
static void read_chart(const char *folder, uint8_t slot, struct chart *chart)
{
    char name[] = "chart0";
    name[sizeof name - 2] = (char)('0' + slot);
    FILE *file = open_in(folder, name);
    if (file == NULL)
        return;
    chart->length = fread(chart->bytes, 1, sizeof chart->bytes, file);
    fclose(file);
}

const uint8_t *answer(const char *folder, const uint8_t *record, size_t length)
{
    struct chart chart = {0};
    if (length == TRUNHOAC_RECORD_BYTES && record[0] == TRUNHOAC_LOAD && record[1] < TRUNHOAC_SLOTS)
        read_chart(folder, record[1], &chart);
    return command(record, length, &chart);
}
