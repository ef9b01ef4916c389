#include "full.h"

enum {
    EVENTS = 56,
    FIRST_OF_32 = 32, /* blocks: below it they have 16 bytes */
    FIRST_OF_64 = 48,
    FIRST_KNOWN = 5, /* signals: both charts know seven from here on */
    KNOWN = 7,
    APART = 17, /* has no divisor in common with EVENTS: entries so far apart come to each event */
    LIVES = 9   /* block b had so many events, times b, before: the last generations take two bytes */
};

/* An event as the kernel knows it, and all of it as the ordinary program does. */
struct event {
    struct trunhoac_handle handle;
    struct ordinary_event copy;
};

/* So many bytes that the event takes block b, and a signal that another is next to. */
static struct ordinary_event event_for(size_t b)
{
    struct ordinary_event event = {
        .signal = (uint8_t)(FIRST_KNOWN + (b + b / KNOWN) % KNOWN),
        .size = b < FIRST_OF_32 ? 16 : b < FIRST_OF_64 ? 32 : 64,
    };

    for (size_t i = 0; i < event.size; i++)
        event.payload[i] = (uint8_t)(b + i);
    return event;
}

static struct trunhoac_handle make_event(struct state *state, const struct ordinary_event *event)
{
    return prepare_new(state, event->signal, event->payload, event->size);
}

/* No two have the same generation, so that the logs show whose it is. */
static void make_events(struct state *state, struct event events[EVENTS])
{
    for (size_t b = 0; b < EVENTS; b++) {
        struct event *event = &events[b];
        event->copy = event_for(b);
        for (size_t life = 0; life < LIVES * b; life++)
            prepare_drop(state, make_event(state, &event->copy));
        event->handle = make_event(state, &event->copy);
        event->copy.block = event->handle.block;
        event->copy.generation = trunhoac_generation_of(event->handle);
    }
}

static void start_all(struct full *full)
{
    for (uint8_t p = 1; p <= TRUNHOAC_OBJECTS; p++) {
        uint8_t slot = (p - 1) % 2;
        prepare_start(&full->state, p, slot);
        ordinary_start(full->ordinary, slot, full->state.areas.tables);
    }
}

static void post_to_both(struct full *full, const struct event *event, uint8_t p)
{
    prepare_post(&full->state, event->handle, p);
    ordinary_post(full->ordinary, p, &event->copy);
}

void fill_both(struct full *full, const struct chart charts[CHARTS], size_t boxes)
{
    struct event events[EVENTS];

    prepare_fresh(&full->state);
    full->ordinary = ordinary_new();
    prepare_load(&full->state, 0, &charts[SHIFT_CHART]);
    prepare_load(&full->state, 1, &charts[LARGEST_CHART]);
    start_all(full);
    make_events(&full->state, events);
    for (size_t entry = 0; entry < boxes * TRUNHOAC_MOST_DEPTH; entry++)
        post_to_both(full, &events[entry * APART % EVENTS], (uint8_t)(1 + entry / TRUNHOAC_MOST_DEPTH));
}
