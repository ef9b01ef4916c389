/*
 * Calls the check and the flattener of both editions from C, as the bench PC does.
 *
 * The expected bytes are written by hand from documents 01 and 02.
 */
#include "trunhoac.h"

#include <stdbool.h>
#include <stdio.h>
#include <stdlib.h>
#include <string.h>

enum {
    RECORD_BYTES = 8,
    ROW_BYTES = 24,
    TOO_LONG_BYTES = 5584,
    GUARD_BYTES = 64,
    /* No table that is made here has a byte of this value: one that has it was not written. */
    FILL = 170
};

static const uint8_t shift_chart[] = {
    3, 1, 10, 0,  0, 0,  0, 0, /* top */
    1, 0, 11, 12, 2, 13, 0, 0, /* state 1 */
    1, 1, 21, 22, 0, 0,  0, 0, /* state 2 */
    1, 1, 31, 32, 4, 33, 0, 0, /* state 3 */
    1, 3, 41, 42, 0, 0,  0, 0, /* state 4 */
    1, 3, 51, 52, 0, 0,  0, 0, /* state 5 */
    2, 1, 5,  1,  1, 15, 0, 0, /* the first row */
    2, 2, 6,  1,  4, 26, 0, 0,
    2, 3, 7,  1,  2, 37, 0, 0,
    2, 3, 8,  1,  5, 38, 0, 0,
    2, 4, 9,  0,  0, 49, 0, 0,
    2, 4, 10, 1,  3, 40, 0, 0,
    2, 5, 11, 1,  1, 59, 0, 0,
};

enum { SHIFT_BYTES = sizeof shift_chart, FIRST_ROW = 6 * RECORD_BYTES, FLAG = 6 /* in a row */ };

/* The two calls of an edition, and the length of its flat table: of a plain chart that is one of the slots 0 to 3. */
struct edition {
    uint32_t (*check)(const uint8_t *chart, size_t chart_length);
    uint32_t (*flatten)(const uint8_t *chart, size_t chart_length, uint8_t *table, size_t table_length);
    size_t table_bytes;
    size_t most_states;
};

static const struct edition plain = {chart_check, chart_flatten, TRUNHOAC_SLOT_BYTES, 24};
static const struct edition guarded = {chart_check_guarded, chart_flatten_guarded, TRUNHOAC_GUARDED_AREA, 8};

/* The longer of the two tables, one byte more for the table that is too long, and guards on both sides. */
static uint8_t memory[GUARD_BYTES + TRUNHOAC_GUARDED_AREA + 1 + GUARD_BYTES];
static uint8_t *const table = memory + GUARD_BYTES;

static int passed;
static int failed;

static void expect(bool holds, const char *what)
{
    if (holds) {
        passed++;
    } else {
        failed++;
        printf("failed: %s\n", what);
    }
}

static bool still_filled(const uint8_t *from, const uint8_t *to)
{
    while (from < to && *from == FILL)
        from++;
    return from == to;
}

static bool untouched(void)
{
    return still_filled(memory, memory + sizeof memory);
}

/* Every byte of the table was written, and none outside it. */
static bool written(const struct edition *edition)
{
    const uint8_t *end = table + edition->table_bytes;
    return memchr(table, FILL, edition->table_bytes) == NULL
        && still_filled(memory, table)
        && still_filled(end, memory + sizeof memory);
}

static uint32_t flatten(const struct edition *edition, const uint8_t *chart, size_t length, size_t table_length)
{
    memset(memory, FILL, sizeof memory);
    return edition->flatten(chart, length, table, table_length);
}

static void expect_flat(const struct edition *edition, const uint8_t *chart, size_t length)
{
    expect(edition->check(chart, length) == 0, "the chart is good");
    expect(flatten(edition, chart, length, edition->table_bytes) == 0, "and is flattened");
    expect(written(edition), "the whole table is written, and nothing else");
}

/* A row of a table: where it begins, and its bytes. A transition's own action comes before every exit. */
struct row {
    size_t place;
    uint8_t bytes[ROW_BYTES];
    const char *what;
};

static void expect_rows(const struct row *rows, size_t count)
{
    for (const struct row *row = rows; row < rows + count; row++)
        expect(memcmp(table + row->place, row->bytes, ROW_BYTES) == 0, row->what);
}

static void test_shift_chart(void)
{
    static const struct row rows[] = {
        {0, {2, 2, 4, 10, 11, 13, 21}, "the start row"},
        {744, {4, 2, 4, 26, 22, 31, 41}, "the row of state 2 and signal 6"},
        {816, {2, 0, 0}, "the row of state 2 and signal 9, ignored"},
        {2064, {2, 2, 7, 15, 42, 32, 12, 11, 13, 21}, "the row of state 4 and signal 5"},
        {2112, {2, 2, 4, 37, 42, 32, 21}, "the row of state 4 and signal 7"},
        {2136, {5, 2, 3, 38, 42, 51}, "the row of state 4 and signal 8"},
        {2160, {4, 1, 1, 49}, "the row of state 4 and signal 9, internal"},
        {2184, {4, 2, 4, 40, 42, 33, 41}, "the row of state 4 and signal 10"},
        {2880, {2, 2, 5, 59, 52, 32, 13, 21}, "the row of state 5 and signal 11"},
        {16128, {0}, "the last row, of an absent state"},
    };

    expect_flat(&plain, shift_chart, SHIFT_BYTES);
    expect_rows(rows, sizeof rows / sizeof rows[0]);
}

/* Rows with flags, for the states of the shift chart. */
static const uint8_t rows_with_flags[] = {
    2, 1, 5,  1, 1, 15, 0, 0,
    2, 1, 9,  1, 1, 19, 0, 0,
    2, 1, 10, 0, 0, 18, 4, 0,
    2, 2, 6,  1, 4, 26, 1, 0,
    2, 3, 8,  1, 5, 38, 3, 0,
    2, 3, 9,  1, 5, 39, 8, 0,
    2, 4, 9,  0, 0, 49, 2, 0,
    2, 4, 10, 1, 3, 40, 0, 0,
    2, 5, 11, 1, 1, 59, 0, 0,
};

/* The six of state s and signal g begin at 24 + 24 * 6 * (28 * (s - 1) + g - 4). The flag of each is its byte 21. */
static void test_rows_with_flags(void)
{
    static const struct row rows[] = {
        {0, {2, 2, 4, 10, 11, 13, 21}, "the start row"},
        {168, {2, 2, 5, 15, 12, 11, 13, 21}, "state 1, a parent, and signal 5"},
        {4344, {4, 2, 4, 26, 22, 31, 41, [21] = 1}, "state 2 and signal 6, with flag 1"},
        {4368, {0}, "then zeros, since no state outward has a row"},
        {4776, {2, 2, 6, 19, 22, 12, 11, 13, 21}, "state 2 and signal 9: the row of state 1"},
        {4800, {0}, "then zeros"},
        {5064, {0}, "state 2 and signal 11, which is ignored"},
        {12696, {5, 2, 3, 38, 42, 51, [21] = 3}, "state 4 and signal 8: the row of state 3, with flag 3"},
        {12720, {0}, "then zeros"},
        {12840, {4, 1, 1, 49, [21] = 2}, "state 4 and signal 9: its own row, with flag 2"},
        {12864, {5, 2, 3, 39, 42, 51, [21] = 8}, "then that of state 3, with flag 8"},
        {12888, {2, 2, 7, 19, 42, 32, 12, 11, 13, 21}, "then that of state 1, without"},
        {12912, {0}, "then zeros"},
        {12984, {4, 2, 4, 40, 42, 33, 41}, "state 4 and signal 10: its own row, without a flag"},
        {13008, {0}, "behind it that of state 1 is not there"},
        {17016, {5, 1, 1, 18, [21] = 4}, "state 5 and signal 10: the row of state 1, with flag 4"},
        {17040, {0}, "then zeros"},
        {17160, {2, 2, 5, 59, 52, 32, 13, 21}, "state 5 and signal 11"},
        {32256, {0}, "the last row, of an absent state"},
    };
    uint8_t chart[FIRST_ROW + sizeof rows_with_flags];

    memcpy(chart, shift_chart, FIRST_ROW);
    memcpy(chart + FIRST_ROW, rows_with_flags, sizeof rows_with_flags);
    expect_flat(&guarded, chart, sizeof chart);
    expect_rows(rows, sizeof rows / sizeof rows[0]);
}

static const uint8_t six_levels[] = {
    3, 1, 10, 0,  0, 0,  0, 0, /* top */
    1, 0, 11, 12, 2, 0,  0, 0, /* state 1 */
    1, 1, 21, 22, 3, 0,  0, 0,
    1, 2, 31, 32, 4, 0,  0, 0,
    1, 3, 41, 42, 5, 0,  0, 0,
    1, 4, 51, 52, 8, 0,  0, 0, /* state 5, which leads on to 8 */
    1, 1, 61, 62, 0, 0,  0, 0,
    1, 1, 71, 72, 0, 0,  0, 0,
    1, 5, 81, 82, 0, 0,  0, 0, /* state 8 */
    2, 1, 31, 0,  0, 19, 8, 0, /* the rows, each with a flag */
    2, 2, 31, 0,  0, 29, 7, 0,
    2, 3, 31, 0,  0, 39, 6, 0,
    2, 4, 31, 1,  6, 49, 5, 0,
    2, 5, 31, 0,  0, 59, 4, 0,
    2, 8, 31, 1,  8, 89, 1, 0,
};

/* The last state lies six levels deep, so that the last six rows of the table are taken up. */
static void test_six_levels(void)
{
    static const struct row rows[] = {
        {0, {8, 2, 7, 10, 11, 21, 31, 41, 51, 81}, "the start row, down to state 8"},
        {28104, {7, 1, 1, 19, [21] = 8}, "state 7 and signal 31: the row of state 1"},
        {28128, {0}, "then zeros"},
        {32112, {0}, "state 8 and signal 30, its last row"},
        {32136, {8, 2, 3, 89, 82, 81, [21] = 1}, "state 8 and signal 31: its own row"},
        {32160, {8, 1, 1, 59, [21] = 4}, "then that of state 5"},
        {32184, {6, 2, 7, 49, 82, 52, 42, 32, 22, 61, [21] = 5}, "then that of state 4"},
        {32208, {8, 1, 1, 39, [21] = 6}, "then that of state 3"},
        {32232, {8, 1, 1, 29, [21] = 7}, "then that of state 2"},
        {32256, {8, 1, 1, 19, [21] = 8}, "then that of state 1, the last of the table"},
    };

    expect_flat(&guarded, six_levels, sizeof six_levels);
    expect_rows(rows, sizeof rows / sizeof rows[0]);
}

static void expect_class(const struct edition *edition, uint32_t class, const uint8_t *chart, size_t length,
                         const char *what)
{
    expect(edition->check(chart, length) == class, what);
    expect(flatten(edition, chart, length, edition->table_bytes) == class && untouched(), what);
    expect(flatten(edition, chart, length, 1) == class && untouched(), what);
}

static uint8_t *with(uint8_t *chart, size_t place, uint8_t value)
{
    chart[place] = value;
    return chart;
}

/* The shift chart with one byte changed. */
static uint8_t *changed(size_t place, uint8_t value)
{
    static uint8_t chart[SHIFT_BYTES];
    memcpy(chart, shift_chart, SHIFT_BYTES);
    return with(chart, place, value);
}

/* The shift chart without the initial transition of a state. */
static uint8_t *without_start(size_t state)
{
    size_t initial = state * RECORD_BYTES + 4;
    return with(changed(initial, 0), initial + 1, 0);
}

/* What both editions ask for. */
static void test_classes(const struct edition *edition)
{
    static const uint8_t too_long[TOO_LONG_BYTES] = {0};

    expect_class(edition, 1, NULL, 0, "class 1: no chart");
    expect_class(edition, 1, shift_chart, 0, "class 1: length 0");
    expect_class(edition, 1, shift_chart, SHIFT_BYTES - 1, "class 1: not a multiple of 8");
    expect_class(edition, 1, too_long, TOO_LONG_BYTES, "class 1: too long");
    expect_class(edition, 2, shift_chart, RECORD_BYTES, "class 2: no state");
    expect_class(edition, 2, changed(0, 4), SHIFT_BYTES, "class 2: unknown kind");
    expect_class(edition, 2, changed(FIRST_ROW, 3), SHIFT_BYTES, "class 2: kinds out of order");
    expect_class(edition, 2, changed(FLAG, 1), SHIFT_BYTES, "class 2: a flag at the top");
    expect_class(edition, 2, changed(RECORD_BYTES + FLAG, 1), SHIFT_BYTES, "class 2: a flag at a state");
    expect_class(edition, 2, changed(SHIFT_BYTES - 1, 1), SHIFT_BYTES, "class 2: last filler byte");
    expect_class(edition, 3, changed(1, 6), SHIFT_BYTES, "class 3: top target absent");
    expect_class(edition, 3, changed(RECORD_BYTES + 1, 1), SHIFT_BYTES, "class 3: a state in itself");
    expect_class(edition, 3, changed(RECORD_BYTES + 4, 1), SHIFT_BYTES, "class 3: initial to itself");
    expect_class(edition, 4, changed(FIRST_ROW + 2, 3), SHIFT_BYTES, "class 4: signal 3");
    expect_class(edition, 4, changed(FIRST_ROW + 4, 6), SHIFT_BYTES, "class 4: target absent");
    expect_class(edition, 4, changed(FIRST_ROW + 1, 3), SHIFT_BYTES, "class 4: rows not ascending");
}

/* A state that is another state's parent and has no initial target. */
static void test_missing_starts(const struct edition *edition)
{
    expect_class(edition, 3, without_start(1), SHIFT_BYTES, "class 3: no start in state 1");
    expect_class(edition, 3, without_start(3), SHIFT_BYTES, "class 3: no start in state 3");
    expect_class(edition, 3, with(without_start(3), 1, 6), SHIFT_BYTES, "class 3: and top target absent");
    expect_class(edition, 1, without_start(3), SHIFT_BYTES - 1, "class 1 and no start");
    expect_class(edition, 2, with(without_start(3), 7, 1), SHIFT_BYTES, "class 2, then no start");
    expect_class(edition, 2, with(without_start(3), SHIFT_BYTES - 1, 1), SHIFT_BYTES, "no start, then class 2");
    expect_class(edition, 3, with(without_start(3), FIRST_ROW + 2, 3), SHIFT_BYTES, "no start and class 4");
}

/* As many states as there may be, and one more. */
static void test_most_states(const struct edition *edition)
{
    uint8_t chart[(1 + 24 + 1) * RECORD_BYTES] = {3, 1};
    size_t length = (1 + edition->most_states) * RECORD_BYTES;

    for (size_t state = 1; state <= edition->most_states + 1; state++)
        chart[state * RECORD_BYTES] = 1;
    expect_flat(edition, chart, length);
    expect_class(edition, 2, chart, length + RECORD_BYTES, "class 2: a state too many");
    expect_class(edition, 2, with(chart, 1, 0), length + RECORD_BYTES, "class 2 and no top target");
}

/* In a row of a plain chart the flag's byte is filler, in one of a guarded chart it is at most 8. */
static void test_flags(void)
{
    enum { PLACE = FIRST_ROW + FLAG, LAST = SHIFT_BYTES - RECORD_BYTES + FLAG };

    for (uint8_t flag = 1; flag <= TRUNHOAC_FLAGS; flag++) {
        expect_class(&plain, 2, changed(PLACE, flag), SHIFT_BYTES, "class 2: a flag in a plain chart");
        expect_flat(&guarded, changed(PLACE, flag), SHIFT_BYTES);
    }
    expect_class(&plain, 2, changed(LAST, 1), SHIFT_BYTES, "class 2: a flag in the last row of a plain chart");
    expect_class(&plain, 2, changed(PLACE, 9), SHIFT_BYTES, "class 2: flag 9 in a plain chart");
    expect_class(&guarded, 4, changed(PLACE, 9), SHIFT_BYTES, "class 4: flag 9");
    expect_class(&guarded, 4, changed(PLACE, 255), SHIFT_BYTES, "class 4: flag 255");
    expect_class(&guarded, 4, changed(LAST, 9), SHIFT_BYTES, "class 4: flag 9 in the last row");
    expect_class(&guarded, 2, with(changed(PLACE, 9), PLACE + 1, 1), SHIFT_BYTES, "flag 9 and class 2");
    expect_class(&guarded, 3, with(without_start(3), PLACE, 9), SHIFT_BYTES, "flag 9 and class 3");
}

static void test_three_levels(void)
{
    uint8_t chart[] = {
        3, 1, 10, 0,  0, 0,  0, 0, /* top */
        1, 0, 11, 12, 0, 0,  0, 0, /* state 1, the parent of the parent */
        1, 1, 21, 22, 3, 23, 0, 0, /* state 2 */
        1, 2, 31, 32, 0, 0,  0, 0, /* state 3 */
        2, 1, 4,  1,  1, 14, 0, 0, /* the only row */
    };
    static const struct row rows[] = {
        {0, {3, 2, 6, 10, 11, 13, 21, 23, 31}, "the start row, down to state 3"},
        {24, {3, 2, 7, 14, 12, 11, 13, 21, 23, 31}, "the row of state 1, a parent, and signal 4"},
        {696, {3, 2, 8, 14, 22, 12, 11, 13, 21, 23, 31}, "the row of state 2, a parent, and signal 4"},
        {720, {2, 0, 0}, "the row of state 2 and signal 5, ignored"},
        {1368, {3, 2, 9, 14, 32, 22, 12, 11, 13, 21, 23, 31}, "the row of state 3 and signal 4"},
    };

    expect_class(&plain, 3, chart, sizeof chart, "class 3: only the parent of the parent has no start");
    with(with(chart, RECORD_BYTES + 4, 2), RECORD_BYTES + 5, 13);
    expect_flat(&plain, chart, sizeof chart);
    expect_rows(rows, sizeof rows / sizeof rows[0]);
}

/* The length of the other edition's table is one of them. */
static void test_table_lengths(const struct edition *edition, const struct edition *other)
{
    const size_t lengths[] = {0, edition->table_bytes - 1, edition->table_bytes + 1, other->table_bytes};

    for (size_t i = 0; i < sizeof lengths / sizeof lengths[0]; i++)
        expect(flatten(edition, shift_chart, SHIFT_BYTES, lengths[i]) == 5 && untouched(),
               "a table of another length");
    expect(edition->flatten(shift_chart, SHIFT_BYTES, NULL, 0) == 5, "no table");
}

/* However a chart is damaged, it is answered, and the table is written whole or not at all. */
static void test_damage(const struct edition *edition, size_t place, uint8_t value)
{
    const uint8_t *chart = changed(place, value);
    uint32_t class = edition->check(chart, SHIFT_BYTES);
    uint32_t answer = flatten(edition, chart, SHIFT_BYTES, edition->table_bytes);
    char what[64];

    snprintf(what, sizeof what, "byte %zu changed to %u", place, (unsigned)value);
    expect(class <= 4 && answer == class && (class == 0 ? written(edition) : untouched()), what);
}

static void test_damaged_charts(const struct edition *edition)
{
    static const uint8_t values[] = {0, 1, 2, 3, 4, 5, 6, 8, 9, 31, 32, 127, 128, 255};

    for (size_t place = 0; place < SHIFT_BYTES; place++)
        for (size_t i = 0; i < sizeof values; i++)
            test_damage(edition, place, values[i]);
}

static void test_both(const struct edition *edition, const struct edition *other)
{
    test_classes(edition);
    test_missing_starts(edition);
    test_most_states(edition);
    test_table_lengths(edition, other);
    test_damaged_charts(edition);
}

int main(void)
{
    test_shift_chart();
    test_three_levels();
    test_rows_with_flags();
    test_six_levels();
    test_flags();
    test_both(&plain, &guarded);
    test_both(&guarded, &plain);
    printf("%d passed, %d failed\n", passed, failed);
    return failed == 0 ? EXIT_SUCCESS : EXIT_FAILURE;
}
