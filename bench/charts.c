#include "charts.h"

#include "fail.h"

/* Six states, each in the one before it, so that a signal may have six rows; all but the outermost then have a flag. */
static const struct chart guarded_chart = {
    .length = 14 * 8,
    .bytes = {
        3, 1, 10,          0,  0, 0,  0, 0, /* top */
        1, 0, 11,          21, 2, 0,  0, 0, /* state 1 */
        1, 1, 12,          22, 3, 0,  0, 0,
        1, 2, 13,          23, 4, 0,  0, 0,
        1, 3, 14,          24, 5, 0,  0, 0,
        1, 4, 15,          25, 6, 0,  0, 0,
        1, 5, 16,          26, 0, 0,  0, 0, /* state 6 */
        2, 1, TAKES_SIXTH, 0,  0, 31, 0, 0, /* the rows, from the outermost state's on */
        2, 2, TAKES_SIXTH, 0,  0, 32, 5, 0,
        2, 3, TAKES_SIXTH, 0,  0, 33, 4, 0,
        2, 4, TAKES_SIXTH, 0,  0, 34, 3, 0,
        2, 5, TAKES_SIXTH, 0,  0, 35, 2, 0,
        2, 6, TAKES_FIRST, 0,  0, 46, 0, 0,
        2, 6, TAKES_SIXTH, 0,  0, 36, 1, 0,
    },
};

static void read_chart(struct chart *chart, const char *path)
{
    FILE *file = fopen(path, "rb");

    if (file == NULL)
        fail("cannot be read", path);
    chart->length = fread(chart->bytes, 1, sizeof chart->bytes, file);
    fclose(file);
}

void read_charts(struct chart charts[CHARTS], int count, char **arguments)
{
    if (count != 3)
        fail("takes two files, SHIFT_CHART LARGEST_CHART", arguments[0]);
    read_chart(&charts[SHIFT_CHART], arguments[1]);
    read_chart(&charts[LARGEST_CHART], arguments[2]);
    charts[GUARDED_CHART] = guarded_chart;
    if (charts[LARGEST_CHART].length != TRUNHOAC_MOST_CHART_BYTES)
        fail("not the length of a largest chart", arguments[2]);
}
