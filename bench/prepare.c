#include "prepare.h"

#include <stdio.h>
#include <stdlib.h>

static void give(struct state *state, const uint8_t *record, const uint8_t *chart, size_t chart_length,
                 uint8_t reply[TRUNHOAC_REPLY_BYTES])
{
    struct areas *areas = &state->areas;

    trunhoac_command(&state->kernel, record, TRUNHOAC_RECORD_BYTES, chart, chart_length,
                     areas->payloads, sizeof areas->payloads, areas->tables, sizeof areas->tables,
                     areas->guarded, sizeof areas->guarded, areas->log, sizeof areas->log, reply);
    if (reply[TRUNHOAC_AT_NUMBER] != TRUNHOAC_DONE) {
        fprintf(stderr, "command %d of a preparation is refused: %d\n", record[0], reply[TRUNHOAC_AT_NUMBER]);
        exit(EXIT_FAILURE);
    }
}

void prepare_fresh(struct state *state)
{
    memset(state, 0, sizeof *state);
    trunhoac_fresh(&state->kernel);
}

void prepare(struct state *state, const uint8_t *record)
{
    uint8_t reply[TRUNHOAC_REPLY_BYTES];
    give(state, record, NULL, 0, reply);
}

void prepare_load(struct state *state, uint8_t slot, const struct chart *chart)
{
    uint8_t record[TRUNHOAC_RECORD_BYTES];
    uint8_t reply[TRUNHOAC_REPLY_BYTES];
    give(state, trunhoac_fill_load(record, slot), chart->bytes, chart->length, reply);
}

void prepare_start(struct state *state, uint8_t p, uint8_t slot)
{
    uint8_t record[TRUNHOAC_RECORD_BYTES];
    prepare(state, trunhoac_fill_start(record, p, slot, TRUNHOAC_MOST_DEPTH));
}

struct trunhoac_handle prepare_new(struct state *state, uint8_t signal, const uint8_t *payload, uint8_t size)
{
    uint8_t record[TRUNHOAC_RECORD_BYTES];
    uint8_t reply[TRUNHOAC_REPLY_BYTES];
    give(state, trunhoac_fill_new(record, signal, payload, size), NULL, 0, reply);
    return trunhoac_handle_in(reply);
}

void prepare_post(struct state *state, struct trunhoac_handle event, uint8_t p)
{
    uint8_t record[TRUNHOAC_RECORD_BYTES];
    prepare(state, trunhoac_fill_post(record, event, p, 0));
}

void prepare_drop(struct state *state, struct trunhoac_handle event)
{
    uint8_t record[TRUNHOAC_RECORD_BYTES];
    prepare(state, trunhoac_fill_drop(record, event));
}
