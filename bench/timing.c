#include "timing.h"

#include <stdint.h>
#include <stdlib.h>
#include <time.h>

enum { STACK_STEP = 16, STACK_PLACES = 4096 / STACK_STEP };

double processor_time(void)
{
    struct timespec used;

    clock_gettime(CLOCK_THREAD_CPUTIME_ID, &used);
    return (double)used.tv_sec * 1e9 + (double)used.tv_nsec;
}

static int by_time(const void *left, const void *right)
{
    double a = *(const double *)left;
    double b = *(const double *)right;

    return (a > b) - (a < b);
}

struct spread spread_of(double *times, size_t count)
{
    qsort(times, count, sizeof times[0], by_time);
    struct spread spread = {times[count / 4], times[count / 2], times[count - 1 - count / 4]};
    return spread;
}

struct spread without(struct spread ns, double harness)
{
    struct spread rest = {ns.lower - harness, ns.median - harness, ns.upper - harness};
    return rest;
}

/* The case's own stack begins so many bytes lower. */
static double time_lower(double (*time_case)(size_t c), size_t c, size_t lower)
{
    uint8_t passed_over[lower];

    taken_as_used(passed_over);
    double ns = time_case(c);
    taken_as_used(passed_over);
    return ns;
}

/* The place of the stack within a page changes what some calls take, so the rounds go through its places. */
void time_in_rounds(double (*time_case)(size_t c), size_t cases, size_t rounds, double times[cases][rounds])
{
    for (size_t round = 0; round < rounds; round++)
        for (size_t c = 0; c < cases; c++) {
            size_t lower = STACK_STEP * (1 + round % STACK_PLACES);

            /* The first time after another case is longer, and by how much depends on that case. */
            time_lower(time_case, c, lower);
            times[c][round] = time_lower(time_case, c, lower);
        }
}
