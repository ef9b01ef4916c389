/*
 * Times DRAIN against an ordinary program: burst SHIFT_CHART LARGEST_CHART
 *
 * A batch of kernels, or of ordinary programs, is restored to the same full
 * mailboxes, and each has a cleared log of its own. Only the drains are timed;
 * then every log is compared, byte by byte, with that of the ordinary program.
 */
#include "fail.h"
#include "full.h"
#include "machine.h"
#include "timing.h"

#include <stdbool.h>

/* What is linked behind this file, both programs, lies so many bytes further. */
__asm__(".pushsection .text\n.skip " GAP "\n.popsection");

enum {
    BATCH = 16,
    ROUNDS = 3001,
    MOST_STEPS = 255,
    BOXES = TRUNHOAC_OBJECTS,
    NO_NUMBER = 255 /* of a reply: one that has it was not written */
};

enum who { NOBODY, DRAIN, UNTESTED, TESTED };

struct bench_case {
    enum who who;
    size_t calls; /* a whole batch is restored, and so many of it drained */
    size_t boxes; /* so many are full */
    uint8_t budget;
};

/* Where each table begins; the first two have a case for each of `who`, the last has two for a number of boxes. */
enum { IN_A_ROW = 0, ALONE = 4, BY_BUDGET = 8, BY_BOXES = 13 };

static const struct bench_case cases[] = {
    [IN_A_ROW] = {NOBODY, BATCH, BOXES, 0},
    {DRAIN, BATCH, BOXES, MOST_STEPS},
    {UNTESTED, BATCH, BOXES, MOST_STEPS},
    {TESTED, BATCH, BOXES, MOST_STEPS},

    /* The one that is drained was restored first, and the rest of the batch put it out of the nearest cache. */
    [ALONE] = {NOBODY, 1, BOXES, 0},
    {DRAIN, 1, BOXES, MOST_STEPS},
    {UNTESTED, 1, BOXES, MOST_STEPS},
    {TESTED, 1, BOXES, MOST_STEPS},

    [BY_BUDGET] = {DRAIN, BATCH, BOXES, 0},
    {DRAIN, BATCH, BOXES, 1},
    {DRAIN, BATCH, BOXES, 16},
    {DRAIN, BATCH, BOXES, 64},
    {DRAIN, BATCH, BOXES, 128},

    [BY_BOXES] = {DRAIN, BATCH, 1, MOST_STEPS},
    {UNTESTED, BATCH, 1, MOST_STEPS},
    {DRAIN, BATCH, 2, MOST_STEPS},
    {UNTESTED, BATCH, 2, MOST_STEPS},
    {DRAIN, BATCH, 4, MOST_STEPS},
    {UNTESTED, BATCH, 4, MOST_STEPS},
    {DRAIN, BATCH, 8, MOST_STEPS},
    {UNTESTED, BATCH, 8, MOST_STEPS},
};

enum { CASES = sizeof cases / sizeof cases[0] };

static struct chart charts[CHARTS];
static struct full fulls[BOXES + 1]; /* by the number of full boxes */
static uint8_t expected[CASES][TRUNHOAC_LOG_AREA];
static double times[CASES][ROUNDS];

static struct trunhoac_kernel kernels[BATCH];
static struct ordinary *programs[BATCH];
static uint8_t record[TRUNHOAC_RECORD_BYTES];
static uint8_t logs[BATCH][TRUNHOAC_LOG_AREA];
static uint8_t replies[BATCH][TRUNHOAC_REPLY_BYTES];
static size_t steps[BATCH];

static void restore_kernel(const struct full *full, size_t i)
{
    kernels[i] = full->state.kernel;
    memset(replies[i], NO_NUMBER, sizeof replies[i]);
}

static void restore_ordinary(const struct full *full, size_t i)
{
    ordinary_restore(programs[i], full->ordinary);
    steps[i] = SIZE_MAX;
}

static struct areas *lent(const struct bench_case *timed)
{
    return &fulls[timed->boxes].state.areas;
}

static void drain_nothing(const struct bench_case *timed, size_t i)
{
    (void)timed;
    taken_as_used(logs[i]);
}

static void drain_kernel(const struct bench_case *timed, size_t i)
{
    struct areas *areas = lent(timed);

    trunhoac_command(&kernels[i], record, sizeof record, NULL, 0,
                     areas->payloads, sizeof areas->payloads, areas->tables, sizeof areas->tables,
                     areas->guarded, sizeof areas->guarded, logs[i], sizeof logs[i], replies[i]);
}

static void drain_untested(const struct bench_case *timed, size_t i)
{
    steps[i] = ordinary_drain(programs[i], lent(timed)->tables, logs[i], timed->budget);
}

static void drain_tested(const struct bench_case *timed, size_t i)
{
    steps[i] = ordinary_drain_tested(programs[i], lent(timed)->tables, logs[i], timed->budget);
}

static size_t queued(const struct bench_case *timed)
{
    return timed->boxes * TRUNHOAC_MOST_DEPTH;
}

static size_t steps_due(const struct bench_case *timed)
{
    return queued(timed) < timed->budget ? queued(timed) : timed->budget;
}

static bool nobody_answered(const struct bench_case *timed, size_t i)
{
    (void)timed;
    return replies[i][TRUNHOAC_AT_NUMBER] == NO_NUMBER;
}

/* The steps, then 1 if nothing is queued, and otherwise 0, since the budget is spent. */
static bool kernel_answered(const struct bench_case *timed, size_t i)
{
    size_t due = steps_due(timed);
    const uint8_t reply[TRUNHOAC_REPLY_BYTES] = {[TRUNHOAC_AT_VALUES] = (uint8_t)due, due == queued(timed)};

    return memcmp(replies[i], reply, sizeof reply) == 0;
}

static bool ordinary_answered(const struct bench_case *timed, size_t i)
{
    return steps[i] == steps_due(timed);
}

static const struct {
    const char *name;
    void (*restore)(const struct full *full, size_t i);
    void (*drain)(const struct bench_case *timed, size_t i);
    bool (*answered)(const struct bench_case *timed, size_t i);
} contenders[] = {
    [NOBODY] = {"nothing, taken off those below", restore_kernel, drain_nothing, nobody_answered},
    [DRAIN] = {"DRAIN", restore_kernel, drain_kernel, kernel_answered},
    [UNTESTED] = {"ordinary program", restore_ordinary, drain_untested, ordinary_answered},
    [TESTED] = {"ordinary program, rows tested", restore_ordinary, drain_tested, ordinary_answered},
};

static void restore_batch(const struct bench_case *timed)
{
    trunhoac_fill_drain(record, timed->budget);
    for (size_t i = 0; i < BATCH; i++)
        contenders[timed->who].restore(&fulls[timed->boxes], i);
    memset(logs, 0, sizeof logs);
}

static void expect_same(size_t c)
{
    const struct bench_case *timed = &cases[c];

    for (size_t i = 0; i < timed->calls; i++) {
        if (!contenders[timed->who].answered(timed, i))
            fail("not the answer of the documents", contenders[timed->who].name);
        if (memcmp(logs[i], expected[c], sizeof logs[i]) != 0)
            fail("not the same log", contenders[timed->who].name);
    }
}

/* The time of one call, as the mean of the calls. */
static double time_case(size_t c)
{
    const struct bench_case *timed = &cases[c];

    restore_batch(timed);
    double start = processor_time();
    for (size_t i = 0; i < timed->calls; i++)
        contenders[timed->who].drain(timed, i);
    double end = processor_time();
    expect_same(c);
    return (end - start) / (double)timed->calls;
}

/* The logs to compare with are the ordinary program's. */
static void prepare_all(void)
{
    for (size_t boxes = 1; boxes <= BOXES; boxes++)
        fill_both(&fulls[boxes], charts, boxes);
    for (size_t i = 0; i < BATCH; i++)
        programs[i] = ordinary_new();
    for (size_t c = 0; c < CASES; c++) {
        restore_ordinary(&fulls[cases[c].boxes], 0);
        ordinary_drain_tested(programs[0], lent(&cases[c])->tables, expected[c], cases[c].budget);
    }
}

static struct spread ns_a_call(size_t c)
{
    size_t harness = cases[c].calls == 1 ? ALONE : IN_A_ROW;
    struct spread ns = spread_of(times[c], ROUNDS);

    return c == harness ? ns : without(ns, spread_of(times[harness], ROUNDS).median);
}

/* Divided by the time of the faster of the ordinary program's two forms. */
static double by_faster_ordinary(size_t first, enum who who)
{
    double untested = ns_a_call(first + UNTESTED).median;
    double tested = ns_a_call(first + TESTED).median;

    return ns_a_call(first + who).median / (untested < tested ? untested : tested);
}

/* A call, its quartiles, and one of its steps where it has any. */
static void print_call(size_t c)
{
    struct spread ns = ns_a_call(c);
    size_t due = steps_due(&cases[c]);

    printf(" %.1f | %.1f to %.1f |", ns.median, ns.lower, ns.upper);
    if (due > 0)
        printf(" %.2f", ns.median / (double)due);
    printf(" |");
}

static void print_contenders(size_t first)
{
    printf("| %d of %d queued, calls in a row: %zu", MOST_STEPS, BOXES * TRUNHOAC_MOST_DEPTH, cases[first].calls);
    puts(" | ns a call | Quartiles | ns a step | Divided by the faster ordinary |\n|---|---:|---:|---:|---:|");
    for (size_t who = NOBODY; who <= TESTED; who++) {
        printf("| %s |", contenders[who].name);
        print_call(first + who);
        if (who != NOBODY)
            printf(" %.2f", by_faster_ordinary(first, who));
        puts(" |");
    }
    puts("");
}

static void print_budget(size_t c)
{
    printf("| %d |", cases[c].budget);
    print_call(c);
    puts("");
}

static void print_boxes(size_t drain, size_t ordinary)
{
    printf("| %zu |", cases[drain].boxes);
    print_call(drain);
    print_call(ordinary);
    puts("");
}

static void print_growth(void)
{
    puts("| Budget of DRAIN | ns a call | Quartiles | ns a step |\n|---:|---:|---:|---:|");
    for (size_t c = BY_BUDGET; c < BY_BOXES; c++)
        print_budget(c);
    print_budget(IN_A_ROW + DRAIN);
    puts("\n| Full mailboxes | DRAIN, ns a call | Quartiles | ns a step"
         " | Ordinary program, ns a call | Quartiles | ns a step |\n|---:|---:|---:|---:|---:|---:|---:|");
    for (size_t c = BY_BOXES; c < CASES; c += 2)
        print_boxes(c, c + 1);
    print_boxes(IN_A_ROW + DRAIN, IN_A_ROW + UNTESTED);
}

int main(int count, char **arguments)
{
    read_charts(charts, count, arguments);
    prepare_all();
    time_in_rounds(time_case, CASES, ROUNDS, times);
    print_machine();
    printf("; %s; %d rounds of %d states\n\n", RUSTC, ROUNDS, BATCH);
    print_contenders(IN_A_ROW);
    print_contenders(ALONE);
    print_growth();
    printf("\nratio: %.2f\n", by_faster_ordinary(IN_A_ROW, DRAIN));
    return EXIT_SUCCESS;
}
