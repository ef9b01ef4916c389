/* The states of the kernel that the cases begin with. Each is made by commands, every one of which must be done. */
#ifndef BENCH_STATES_H
#define BENCH_STATES_H

#include "prepare.h"

/* Signals, as the shift chart takes them at its first state of rest, 2. */
enum {
    RETURNS = 5, /* a transition that ends in 2 again, so that each of many steps is the same */
    MOVES = 6    /* the transition to 4 */
};

/* Fresh, with the shift chart in slot 0 and the guarded chart in slot 4. */
void charts_loaded(struct state *state, const struct chart charts[CHARTS]);

/* Each of these goes on from there. All sixteen objects are started in slot 0, with mailboxes of 16 places. */
void all_started(struct state *state);
void all_but_nine_started(struct state *state);
void one_block_of_16_left(struct state *state);
void no_block_of_16_left(struct state *state);

/* One event that moves, in block 0, with no reference. */
void event_made(struct state *state);
void event_at_nine(struct state *state);
void event_at_sixteen(struct state *state);
void event_at_one(struct state *state);
void event_held_once(struct state *state);
void event_held_twice(struct state *state);
void event_and_one_subscriber(struct state *state);
void event_and_sixteen_subscribers(struct state *state);

/* A step is open, and the event in hand is queued nowhere, or at another object too. */
void event_in_hand(struct state *state);
void event_in_hand_and_queued(struct state *state);

/* No step is open, and the event is set aside in side queue 0, so many times, and counted nowhere else. */
void event_aside_once(struct state *state);
void event_aside_eight_times(struct state *state);

void one_timer_counting(struct state *state);
void sixteen_timers_counting(struct state *state);
void sixteen_timers_due(struct state *state);

/* An event of no bytes, in block 0, and one of 64, in block 48. */
void event_without_bytes(struct state *state);
void event_of_64_bytes(struct state *state);

/* One event that returns, queued once at each object; and 16 times at each, but 15 at object 1. */
void queued_16_times(struct state *state);
void queued_255_times(struct state *state);

/* All sixteen objects are started in slot 4. An event that takes the first row, or the sixth, is queued at object 9. */
void first_row_at_nine(struct state *state);
void sixth_row_at_nine(struct state *state);

/* That of the first row is in hand, and queued nowhere. */
void first_row_in_hand(struct state *state);

/* As those of slot 0: 16 times at each object, but 15 at object 1. */
void first_row_255_times(struct state *state);
void sixth_row_255_times(struct state *state);

/* The payload of every event: so many first bytes of these. */
#define SIXTEEN_BYTES 1, 2, 3, 4, 5, 6, 7, 8, 9, 10, 11, 12, 13, 14, 15, 16

#endif
