/* A kernel with what its host lends it, and the commands that prepare it: one that is refused ends the program. */
#ifndef BENCH_PREPARE_H
#define BENCH_PREPARE_H

#include "charts.h"

/* What the host lends. */
struct areas {
    uint8_t payloads[TRUNHOAC_PAYLOAD_AREA];
    uint8_t tables[TRUNHOAC_TABLE_AREA];
    uint8_t guarded[TRUNHOAC_GUARDED_AREA];
    uint8_t log[TRUNHOAC_LOG_AREA];
};

struct state {
    struct trunhoac_kernel kernel;
    struct areas areas;
};

/* A fresh kernel, and areas that are 0. */
void prepare_fresh(struct state *state);

/* Any command but LOAD. */
void prepare(struct state *state, const uint8_t *record);

void prepare_load(struct state *state, uint8_t slot, const struct chart *chart);

/* With a mailbox of 16 places. */
void prepare_start(struct state *state, uint8_t p, uint8_t slot);

struct trunhoac_handle prepare_new(struct state *state, uint8_t signal, const uint8_t *payload, uint8_t size);
void prepare_post(struct state *state, struct trunhoac_handle event, uint8_t p);
void prepare_drop(struct state *state, struct trunhoac_handle event);

#endif
