/* What a command that is done has to write to an area, by document 01. */
#include "test.h"

enum { BLOCKS = 56, MIDDLE = 32, LARGE = 48, PAYLOAD = 8 };

/* The blocks in order: 32 of 16 bytes, 16 of 32, 8 of 64. */
size_t place_of(size_t block)
{
    return block < MIDDLE ? 16 * block : block < LARGE ? 512 + 32 * (block - MIDDLE) : 1024 + 64 * (block - LARGE);
}

/* NEW: the payload, and zeros up to the end of its block. */
void write_payload(uint8_t *payloads, const uint8_t *record, const uint8_t *reply)
{
    size_t block = trunhoac_handle_in(reply).block;
    size_t room = place_of(block + 1) - place_of(block);
    if (block >= BLOCKS || record[2] > room)
        return;
    memset(payloads + place_of(block), 0, room);
    memcpy(payloads + place_of(block), record + PAYLOAD, record[2]);
}

/* LOAD: the slot as the flattener of its edition fills it. */
void write_table(uint8_t *tables, uint8_t *guarded, const uint8_t *record, const uint8_t *chart, size_t chart_length)
{
    size_t slot = record[1];
    if (slot == TRUNHOAC_GUARDED_SLOT)
        chart_flatten_guarded(chart, chart_length, guarded, TRUNHOAC_GUARDED_AREA);
    else if (slot < TRUNHOAC_SLOTS)
        chart_flatten(chart, chart_length, tables + slot * TRUNHOAC_SLOT_BYTES, TRUNHOAC_SLOT_BYTES);
}

static void ask(struct trunhoac_kernel *kernel, const uint8_t *record, uint8_t *tables, uint8_t *guarded,
                uint8_t *reply)
{
    trunhoac_command(kernel, record, TRUNHOAC_RECORD_BYTES, NULL, 0, NULL, 0, tables, TRUNHOAC_TABLE_AREA,
                     guarded, TRUNHOAC_GUARDED_AREA, NULL, 0, reply);
}

/* DRAIN: for each step what NEXT answers, with END after it. The kernel is a copy, and goes on step by step. */
void write_log(uint8_t *log, struct trunhoac_kernel kernel, uint8_t *tables, uint8_t *guarded, size_t steps)
{
    uint8_t record[TRUNHOAC_RECORD_BYTES], end[TRUNHOAC_REPLY_BYTES];
    for (size_t i = 0; i < steps; i++) {
        ask(&kernel, trunhoac_fill_next(record), tables, guarded, log + i * TRUNHOAC_REPLY_BYTES);
        ask(&kernel, trunhoac_fill_end(record), tables, guarded, end);
    }
}
