/* The face of bench/ordinary.rs, the ordinary program that DRAIN is timed against. */
#ifndef BENCH_ORDINARY_H
#define BENCH_ORDINARY_H

#include "../include/trunhoac.h"

struct ordinary;

/* All bytes of an event, which are copied wherever it goes. */
struct ordinary_event {
    uint32_t generation;
    uint8_t block;
    uint8_t signal;
    uint8_t size;
    uint8_t payload[TRUNHOAC_MOST_PAYLOAD_BYTES];
};

struct ordinary *ordinary_new(void);

/* The next object from 1 on, with an empty mailbox, at the first rest of the slot's chart. */
void ordinary_start(struct ordinary *program, size_t slot, const uint8_t tables[TRUNHOAC_TABLE_AREA]);

void ordinary_post(struct ordinary *program, size_t p, const struct ordinary_event *event);

/* Makes the program what the other is. */
void ordinary_restore(struct ordinary *program, const struct ordinary *from);

/* Both answer the steps taken. The second stops at a row that is not sound, as DRAIN does. */
size_t ordinary_drain(struct ordinary *program, const uint8_t tables[TRUNHOAC_TABLE_AREA],
                      uint8_t log[TRUNHOAC_LOG_AREA], size_t budget);
size_t ordinary_drain_tested(struct ordinary *program, const uint8_t tables[TRUNHOAC_TABLE_AREA],
                             uint8_t log[TRUNHOAC_LOG_AREA], size_t budget);

#endif
