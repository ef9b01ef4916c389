#include "states.h"

enum { BLOCKS_OF_16 = 32, LONG_TIME = 1000 };

static const uint8_t payload[TRUNHOAC_MOST_PAYLOAD_BYTES] = {
    SIXTEEN_BYTES, SIXTEEN_BYTES, SIXTEEN_BYTES, SIXTEEN_BYTES
};

/* Whatever is posted, held or published is the first event made, of 16 bytes. */
static const struct trunhoac_handle event = {0};

static void make(struct state *state, uint8_t signal, uint8_t size)
{
    prepare_new(state, signal, payload, size);
}

static void hold(struct state *state)
{
    uint8_t record[TRUNHOAC_RECORD_BYTES];
    prepare(state, trunhoac_fill_hold(record, event));
}

static void subscribe(struct state *state, uint8_t p)
{
    uint8_t record[TRUNHOAC_RECORD_BYTES];
    prepare(state, trunhoac_fill_subscribe(record, p, MOVES));
}

static void next(struct state *state)
{
    uint8_t record[TRUNHOAC_RECORD_BYTES];
    prepare(state, trunhoac_fill_next(record));
}

static void end(struct state *state)
{
    uint8_t record[TRUNHOAC_RECORD_BYTES];
    prepare(state, trunhoac_fill_end(record));
}

static void defer(struct state *state)
{
    uint8_t record[TRUNHOAC_RECORD_BYTES];
    prepare(state, trunhoac_fill_defer(record, 0));
}

/* Timer 0 belongs to object 1, and so on. */
static void arm(struct state *state, uint8_t timer, uint16_t ticks)
{
    uint8_t record[TRUNHOAC_RECORD_BYTES];
    prepare(state, trunhoac_fill_arm(record, timer, timer + 1, MOVES, ticks, LONG_TIME));
}

void charts_loaded(struct state *state, const struct chart charts[CHARTS])
{
    prepare_fresh(state);
    prepare_load(state, 0, &charts[SHIFT_CHART]);
    prepare_load(state, TRUNHOAC_GUARDED_SLOT, &charts[GUARDED_CHART]);
}

static void all_started_in(struct state *state, uint8_t slot)
{
    for (uint8_t p = 1; p <= TRUNHOAC_OBJECTS; p++)
        prepare_start(state, p, slot);
}

void all_started(struct state *state)
{
    all_started_in(state, 0);
}

void all_but_nine_started(struct state *state)
{
    for (uint8_t p = 1; p <= TRUNHOAC_OBJECTS; p++)
        if (p != 9)
            prepare_start(state, p, 0);
}

void one_block_of_16_left(struct state *state)
{
    all_started(state);
    for (int taken = 0; taken < BLOCKS_OF_16 - 1; taken++)
        make(state, MOVES, 16);
}

void no_block_of_16_left(struct state *state)
{
    one_block_of_16_left(state);
    make(state, MOVES, 16);
}

void event_made(struct state *state)
{
    all_started(state);
    make(state, MOVES, 16);
}

void event_at_nine(struct state *state)
{
    event_made(state);
    prepare_post(state, event, 9);
}

void event_at_sixteen(struct state *state)
{
    event_made(state);
    prepare_post(state, event, 16);
}

void event_at_one(struct state *state)
{
    event_made(state);
    prepare_post(state, event, 1);
}

void event_held_once(struct state *state)
{
    event_made(state);
    hold(state);
}

void event_held_twice(struct state *state)
{
    event_held_once(state);
    hold(state);
}

void event_and_one_subscriber(struct state *state)
{
    event_made(state);
    subscribe(state, 9);
}

void event_and_sixteen_subscribers(struct state *state)
{
    event_made(state);
    for (uint8_t p = 1; p <= TRUNHOAC_OBJECTS; p++)
        subscribe(state, p);
}

void event_in_hand(struct state *state)
{
    event_at_nine(state);
    next(state);
}

void event_in_hand_and_queued(struct state *state)
{
    event_at_nine(state);
    prepare_post(state, event, 5);
    next(state);
}

static void event_aside(struct state *state, int times)
{
    event_in_hand(state);
    for (int aside = 0; aside < times; aside++)
        defer(state);
    end(state);
}

void event_aside_once(struct state *state)
{
    event_aside(state, 1);
}

void event_aside_eight_times(struct state *state)
{
    event_aside(state, TRUNHOAC_MOST_ASIDE);
}

void one_timer_counting(struct state *state)
{
    all_started(state);
    arm(state, 0, LONG_TIME);
}

static void sixteen_timers(struct state *state, uint16_t ticks)
{
    all_started(state);
    for (uint8_t timer = 0; timer < TRUNHOAC_TIMERS; timer++)
        arm(state, timer, ticks);
}

void sixteen_timers_counting(struct state *state)
{
    sixteen_timers(state, LONG_TIME);
}

void sixteen_timers_due(struct state *state)
{
    sixteen_timers(state, 1);
}

void event_without_bytes(struct state *state)
{
    all_started(state);
    make(state, MOVES, 0);
}

void event_of_64_bytes(struct state *state)
{
    all_started(state);
    make(state, MOVES, 64);
}

/* Round by round through the objects, so that the mailboxes are as full as one another. */
static void queued(struct state *state, uint8_t slot, uint8_t signal, int times)
{
    all_started_in(state, slot);
    make(state, signal, 16);
    for (int queued = 0; queued < times; queued++)
        prepare_post(state, event, (uint8_t)(TRUNHOAC_OBJECTS - queued % TRUNHOAC_OBJECTS));
}

void queued_16_times(struct state *state)
{
    queued(state, 0, RETURNS, 16);
}

void queued_255_times(struct state *state)
{
    queued(state, 0, RETURNS, 255);
}

static void guarded_at_nine(struct state *state, uint8_t signal)
{
    all_started_in(state, TRUNHOAC_GUARDED_SLOT);
    make(state, signal, 16);
    prepare_post(state, event, 9);
}

void first_row_at_nine(struct state *state)
{
    guarded_at_nine(state, TAKES_FIRST);
}

void sixth_row_at_nine(struct state *state)
{
    guarded_at_nine(state, TAKES_SIXTH);
}

void first_row_in_hand(struct state *state)
{
    first_row_at_nine(state);
    next(state);
}

void first_row_255_times(struct state *state)
{
    queued(state, TRUNHOAC_GUARDED_SLOT, TAKES_FIRST, 255);
}

void sixth_row_255_times(struct state *state)
{
    queued(state, TRUNHOAC_GUARDED_SLOT, TAKES_SIXTH, 255);
}
