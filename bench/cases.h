/* What is timed: for each case a state, one call on it, and the answer that the documents give. */
#ifndef BENCH_CASES_H
#define BENCH_CASES_H

#include "states.h"

/* The first two are no calls of the library: they are timed in the same way to hold the others against. */
enum call {
    NOTHING,
    COPY,
    COMMAND,
    SHORT_COMMAND, /* one byte of the record is missing */
    READ_PART,
    CHECK,
    CHECK_GUARDED
};

struct part {
    size_t place;
    size_t length;
};

/* A call writes one of these; which one goes by the call. */
union answer {
    uint8_t reply[TRUNHOAC_REPLY_BYTES];
    struct part part;
    uint32_t class;
};

struct bench_case {
    const char *name;
    enum call call;
    void (*prepare)(struct state *state);
    enum which_chart chart;
    uint8_t record[TRUNHOAC_RECORD_BYTES];
    union answer expected;
    int steps; /* of a DRAIN, whose time is also said for one step; otherwise 0 */
};

/* The empty loop and the copy come first, then the commands as the documents have them. */
enum { EMPTY_LOOP, KERNEL_COPY, FIRST_OF_LIBRARY };

extern const struct bench_case cases[];
extern const size_t case_count;

#endif
