/*
 * Times each command alone: commands SHIFT_CHART LARGEST_CHART
 *
 * A batch of kernels in the same state gets the same command, each kernel once.
 * Only that is timed; the batch is filled before and its answers are compared
 * after.
 */
#include "cases.h"
#include "fail.h"
#include "machine.h"
#include "timing.h"

enum {
    BATCH = 64,
    ROUNDS = 1001,
    MOST_CASES = 64,
    /* No whole answer has this in each byte: one that has it was not written. */
    FILL = 170
};

static struct chart charts[CHARTS];
static struct state states[MOST_CASES];
static double times[MOST_CASES][ROUNDS];

static struct trunhoac_kernel kernels[BATCH];
static struct trunhoac_kernel copies[BATCH];
static union answer answers[BATCH];
/* All kernels of a batch are lent the same areas: each writes there what the one before it wrote. */
static struct areas areas;

static void do_nothing(const struct bench_case *timed, size_t i)
{
    (void)timed;
    taken_as_used(&kernels[i]);
}

static void copy_kernel(const struct bench_case *timed, size_t i)
{
    (void)timed;
    memcpy(&copies[i], &kernels[i], sizeof copies[i]);
    taken_as_used(&copies[i]);
}

static void give(const struct bench_case *timed, size_t i, size_t record_length)
{
    const struct chart *chart = &charts[timed->chart];

    trunhoac_command(&kernels[i], timed->record, record_length, chart->bytes, chart->length,
                     areas.payloads, sizeof areas.payloads, areas.tables, sizeof areas.tables,
                     areas.guarded, sizeof areas.guarded, areas.log, sizeof areas.log, answers[i].reply);
}

static void give_command(const struct bench_case *timed, size_t i)
{
    give(timed, i, TRUNHOAC_RECORD_BYTES);
}

static void give_short_command(const struct bench_case *timed, size_t i)
{
    give(timed, i, TRUNHOAC_RECORD_BYTES - 1);
}

static void read_part(const struct bench_case *timed, size_t i)
{
    struct part *part = &answers[i].part;

    trunhoac_read(&kernels[i], timed->record, TRUNHOAC_RECORD_BYTES, areas.payloads, sizeof areas.payloads,
                  &part->place, &part->length);
}

static void check_chart(const struct bench_case *timed, size_t i)
{
    const struct chart *chart = &charts[timed->chart];

    answers[i].class = chart_check(chart->bytes, chart->length);
}

static void check_guarded_chart(const struct bench_case *timed, size_t i)
{
    const struct chart *chart = &charts[timed->chart];

    answers[i].class = chart_check_guarded(chart->bytes, chart->length);
}

/* How each call is made, and how many bytes it answers. */
static const struct {
    void (*make)(const struct bench_case *timed, size_t i);
    size_t answer_bytes;
} calls[] = {
    [NOTHING] = {do_nothing, 0},
    [COPY] = {copy_kernel, 0},
    [COMMAND] = {give_command, TRUNHOAC_REPLY_BYTES},
    [SHORT_COMMAND] = {give_short_command, TRUNHOAC_REPLY_BYTES},
    [READ_PART] = {read_part, sizeof(struct part)},
    [CHECK] = {check_chart, sizeof(uint32_t)},
    [CHECK_GUARDED] = {check_guarded_chart, sizeof(uint32_t)},
};

static void fill_batch(const struct state *state)
{
    areas = state->areas;
    memset(answers, FILL, sizeof answers);
    for (size_t i = 0; i < BATCH; i++)
        kernels[i] = copies[i] = state->kernel;
}

static void expect_answers(const struct bench_case *timed)
{
    for (size_t i = 0; i < BATCH; i++)
        if (memcmp(&answers[i], &timed->expected, calls[timed->call].answer_bytes) != 0)
            fail("not the answer of the documents", timed->name);
}

/* The time of one call, as the mean of a batch. */
static double time_batch(size_t c)
{
    fill_batch(&states[c]);
    double start = processor_time();
    for (size_t i = 0; i < BATCH; i++)
        calls[cases[c].call].make(&cases[c], i);
    double end = processor_time();
    expect_answers(&cases[c]);
    return (end - start) / BATCH;
}

static void prepare_all(void)
{
    for (size_t c = 0; c < case_count; c++) {
        charts_loaded(&states[c], charts);
        cases[c].prepare(&states[c]);
    }
}

static void print_row(const char *name, const char *part, struct spread ns, double copy, int share)
{
    printf("| %s%s | %.1f | %.2f | %.1f to %.1f |\n", name, part,
           ns.median / share, ns.median / share / copy, ns.lower / share, ns.upper / share);
}

static void print_table(void)
{
    struct spread harness = spread_of(times[EMPTY_LOOP], ROUNDS);
    double copy = spread_of(times[KERNEL_COPY], ROUNDS).median - harness.median;

    puts("| Command | ns | Copies of the kernel | Quartiles, ns |\n|---|---:|---:|---:|");
    print_row(cases[EMPTY_LOOP].name, ", taken off all below", harness, copy, 1);
    for (size_t c = KERNEL_COPY; c < case_count; c++) {
        struct spread ns = without(spread_of(times[c], ROUNDS), harness.median);
        print_row(cases[c].name, "", ns, copy, 1);
        if (cases[c].steps > 0)
            print_row(cases[c].name, ": one step", ns, copy, cases[c].steps);
    }
}

int main(int count, char **arguments)
{
    if (case_count > MOST_CASES)
        fail("too many cases", arguments[0]);
    read_charts(charts, count, arguments);
    prepare_all();
    time_in_rounds(time_batch, case_count, ROUNDS, times);
    print_machine();
    printf("; %d rounds of %d kernels\n\n", ROUNDS, BATCH);
    print_table();
    return EXIT_SUCCESS;
}
