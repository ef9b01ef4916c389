/* Times of the processor, and what many of them come to. */
#ifndef BENCH_TIMING_H
#define BENCH_TIMING_H

#include <stddef.h>

/* The median of many times and the quartiles on both sides of it. */
struct spread {
    double lower;
    double median;
    double upper;
};

/* Nanoseconds of processor time that this thread has used. */
double processor_time(void);

/* The spread of the times, which are put in order. */
struct spread spread_of(double *times, size_t count);

/* With what the timing itself takes left out. */
struct spread without(struct spread ns, double harness);

/* Times every case in every round, so that a slow moment hits all of them. */
void time_in_rounds(double (*time_case)(size_t c), size_t cases, size_t rounds, double times[cases][rounds]);

/* The compiler must take it that somebody reads and writes the memory, so it cannot leave out what wrote it. */
static inline void taken_as_used(void *memory)
{
    __asm__ volatile("" : : "r"(memory) : "memory");
}

#endif
