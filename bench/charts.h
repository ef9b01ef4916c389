/* The charts that states are made with. */
#ifndef BENCH_CHARTS_H
#define BENCH_CHARTS_H

#include "../include/trunhoac.h"

struct chart {
    uint8_t bytes[TRUNHOAC_MOST_CHART_BYTES];
    size_t length;
};

enum which_chart { NO_CHART, SHIFT_CHART, LARGEST_CHART, GUARDED_CHART, CHARTS };

/* Signals, as the guarded chart takes them at its state of rest, 6: each is an internal one. */
enum {
    TAKES_FIRST = 5, /* by the first of the six rows, which has no flag */
    TAKES_SIXTH = 6  /* by the last of them, if the flags of the other five are down */
};

/* Reads the first two from the files that the two arguments of a program name; the guarded one needs none. */
void read_charts(struct chart charts[CHARTS], int count, char **arguments);

#endif
