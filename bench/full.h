/* What the burst begins with: full mailboxes, entry by entry the same in the kernel and in the ordinary program. */
#ifndef BENCH_FULL_H
#define BENCH_FULL_H

#include "ordinary.h"
#include "prepare.h"

struct full {
    struct state state;
    struct ordinary *ordinary;
};

/* All objects are started, by turns on the two charts, all events made, and mailboxes 1 to `boxes` full. */
void fill_both(struct full *full, const struct chart charts[CHARTS], size_t boxes);

#endif
