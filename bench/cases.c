#include "cases.h"

enum {
    COUNT = TRUNHOAC_AT_COUNT,
    VALUES = TRUNHOAC_AT_VALUES,
    EVENT = TRUNHOAC_AT_HANDLE,
    PAYLOAD = TRUNHOAC_HEAD_BYTES
};

/* The handle of a block that was never freed. */
#define HANDLE(block) block, 0, 0, 0

/* The replies are written by hand from the documents: DONE is 0, and so are the bytes that are not named. */
const struct bench_case cases[] = {
    {.name = "empty loop", .call = NOTHING, .prepare = all_started},
    {.name = "copy of the kernel", .call = COPY, .prepare = all_started},

    {.name = "refused: 71 bytes", .call = SHORT_COMMAND, .prepare = all_started,
     .record = {TRUNHOAC_TICK}, .expected = {.reply = {TRUNHOAC_FORM}}},

    {.name = "LOAD, shift chart", .call = COMMAND, .prepare = all_started, .chart = SHIFT_CHART,
     .record = {TRUNHOAC_LOAD, 1}, .expected = {.reply = {[VALUES] = 5}}},
    {.name = "LOAD, largest chart", .call = COMMAND, .prepare = all_started, .chart = LARGEST_CHART,
     .record = {TRUNHOAC_LOAD, 1}, .expected = {.reply = {[VALUES] = 24}}},
    {.name = "LOAD, guarded chart", .call = COMMAND, .prepare = all_started, .chart = GUARDED_CHART,
     .record = {TRUNHOAC_LOAD, TRUNHOAC_GUARDED_SLOT}, .expected = {.reply = {[VALUES] = 6}}},

    {.name = "START", .call = COMMAND, .prepare = all_but_nine_started,
     .record = {TRUNHOAC_START, 9, 0, 16}, .expected = {.reply = {0, 9, 64, 4, 0, 0, 10, 11, 13, 21}}},
    {.name = "START, slot 4", .call = COMMAND, .prepare = all_but_nine_started,
     .record = {TRUNHOAC_START, 9, TRUNHOAC_GUARDED_SLOT, 16},
     .expected = {.reply = {0, 9, 64, 7, 0, 0, 10, 11, 12, 13, 14, 15, 16}}},

    {.name = "NEW, 0 bytes", .call = COMMAND, .prepare = all_started,
     .record = {TRUNHOAC_NEW, MOVES, 0}, .expected = {.reply = {[COUNT] = 31, [EVENT] = HANDLE(0)}}},
    {.name = "NEW, 16 bytes", .call = COMMAND, .prepare = all_started,
     .record = {TRUNHOAC_NEW, MOVES, 16, [PAYLOAD] = SIXTEEN_BYTES},
     .expected = {.reply = {[COUNT] = 31, [EVENT] = HANDLE(0)}}},
    {.name = "NEW, 64 bytes", .call = COMMAND, .prepare = all_started,
     .record = {TRUNHOAC_NEW, MOVES, 64, [PAYLOAD] = SIXTEEN_BYTES, SIXTEEN_BYTES, SIXTEEN_BYTES, SIXTEEN_BYTES},
     .expected = {.reply = {[COUNT] = 7, [EVENT] = HANDLE(48)}}},
    {.name = "NEW, 16 bytes, 31 other blocks taken", .call = COMMAND, .prepare = one_block_of_16_left,
     .record = {TRUNHOAC_NEW, MOVES, 16, [PAYLOAD] = SIXTEEN_BYTES},
     .expected = {.reply = {[COUNT] = 0, [EVENT] = HANDLE(31)}}},

    {.name = "POST", .call = COMMAND, .prepare = event_at_nine,
     .record = {TRUNHOAC_POST, HANDLE(0), 9, 0}, .expected = {.reply = {[VALUES] = 2}}},
    {.name = "POSTFRONT", .call = COMMAND, .prepare = event_at_nine,
     .record = {TRUNHOAC_POSTFRONT, HANDLE(0), 9}, .expected = {.reply = {[VALUES] = 2}}},

    {.name = "PUBLISH to none", .call = COMMAND, .prepare = event_made,
     .record = {TRUNHOAC_PUBLISH, HANDLE(0)}, .expected = {.reply = {[VALUES] = 0, 1}}},
    {.name = "PUBLISH to 1", .call = COMMAND, .prepare = event_and_one_subscriber,
     .record = {TRUNHOAC_PUBLISH, HANDLE(0)}, .expected = {.reply = {[VALUES] = 1, 0}}},
    {.name = "PUBLISH to 16", .call = COMMAND, .prepare = event_and_sixteen_subscribers,
     .record = {TRUNHOAC_PUBLISH, HANDLE(0)}, .expected = {.reply = {[VALUES] = 16, 0}}},

    {.name = "SUBSCRIBE", .call = COMMAND, .prepare = all_started,
     .record = {TRUNHOAC_SUBSCRIBE, 9, MOVES}, .expected = {.reply = {[VALUES] = 1}}},
    {.name = "UNSUBSCRIBE", .call = COMMAND, .prepare = event_and_one_subscriber,
     .record = {TRUNHOAC_UNSUBSCRIBE, 9, MOVES}, .expected = {.reply = {[VALUES] = 1}}},

    {.name = "HOLD", .call = COMMAND, .prepare = event_made,
     .record = {TRUNHOAC_HOLD, HANDLE(0)}, .expected = {.reply = {[VALUES] = 1}}},
    {.name = "RELEASE, not freeing", .call = COMMAND, .prepare = event_held_twice,
     .record = {TRUNHOAC_RELEASE, HANDLE(0)}, .expected = {.reply = {[VALUES] = 1, 0}}},
    {.name = "RELEASE, freeing", .call = COMMAND, .prepare = event_held_once,
     .record = {TRUNHOAC_RELEASE, HANDLE(0)}, .expected = {.reply = {[VALUES] = 0, 1}}},
    {.name = "DROP", .call = COMMAND, .prepare = event_made,
     .record = {TRUNHOAC_DROP, HANDLE(0)}, .expected = {.reply = {0}}},
    {.name = "DROP, 31 other blocks taken", .call = COMMAND, .prepare = no_block_of_16_left,
     .record = {TRUNHOAC_DROP, HANDLE(31)}, .expected = {.reply = {0}}},

    /* Outcome 2 and signal 6 are 70; the four actions are the paper's "2 by 6". */
    {.name = "NEXT, mail at object 16", .call = COMMAND, .prepare = event_at_sixteen,
     .record = {TRUNHOAC_NEXT}, .expected = {.reply = {0, 16, 70, 4, 0, 0, 26, 22, 31, 41, [EVENT] = HANDLE(0)}}},
    {.name = "NEXT, mail at object 1 only", .call = COMMAND, .prepare = event_at_one,
     .record = {TRUNHOAC_NEXT}, .expected = {.reply = {0, 1, 70, 4, 0, 0, 26, 22, 31, 41, [EVENT] = HANDLE(0)}}},

    /* Outcome 1 and the signals 5 and 6 are 37 and 38. */
    {.name = "NEXT, slot 4, first row taken", .call = COMMAND, .prepare = first_row_at_nine,
     .record = {TRUNHOAC_NEXT}, .expected = {.reply = {0, 9, 37, 1, 0, 0, 46, [EVENT] = HANDLE(0)}}},
    {.name = "NEXT, slot 4, sixth row taken", .call = COMMAND, .prepare = sixth_row_at_nine,
     .record = {TRUNHOAC_NEXT}, .expected = {.reply = {0, 9, 38, 1, 0, 0, 31, [EVENT] = HANDLE(0)}}},

    {.name = "END, freeing", .call = COMMAND, .prepare = event_in_hand,
     .record = {TRUNHOAC_END}, .expected = {.reply = {[VALUES] = 1}}},
    {.name = "END, not freeing", .call = COMMAND, .prepare = event_in_hand_and_queued,
     .record = {TRUNHOAC_END}, .expected = {.reply = {[VALUES] = 0}}},
    {.name = "END, slot 4, freeing", .call = COMMAND, .prepare = first_row_in_hand,
     .record = {TRUNHOAC_END}, .expected = {.reply = {[VALUES] = 1}}},

    {.name = "ARM", .call = COMMAND, .prepare = all_started,
     .record = {TRUNHOAC_ARM, 0, 9, MOVES, 100, 0, 100, 0}, .expected = {.reply = {0}}},
    {.name = "DISARM", .call = COMMAND, .prepare = one_timer_counting,
     .record = {TRUNHOAC_DISARM, 0}, .expected = {.reply = {[VALUES] = 1}}},

    {.name = "TICK, no timer armed", .call = COMMAND, .prepare = all_started,
     .record = {TRUNHOAC_TICK}, .expected = {.reply = {[VALUES] = 0, 0}}},
    {.name = "TICK, 16 counting down", .call = COMMAND, .prepare = sixteen_timers_counting,
     .record = {TRUNHOAC_TICK}, .expected = {.reply = {[VALUES] = 0, 0}}},
    {.name = "TICK, 16 firing", .call = COMMAND, .prepare = sixteen_timers_due,
     .record = {TRUNHOAC_TICK}, .expected = {.reply = {[VALUES] = 16, 0}}},

    {.name = "READ, 0 bytes", .call = COMMAND, .prepare = event_without_bytes,
     .record = {TRUNHOAC_READ, HANDLE(0)}, .expected = {.reply = {[COUNT] = 0, 0}}},
    {.name = "READ, 64 bytes", .call = COMMAND, .prepare = event_of_64_bytes,
     .record = {TRUNHOAC_READ, HANDLE(48)}, .expected = {.reply = {[COUNT] = 18, 64, 0, SIXTEEN_BYTES, 1, 2}}},
    {.name = "trunhoac_read, 64 bytes", .call = READ_PART, .prepare = event_of_64_bytes,
     .record = {TRUNHOAC_READ, HANDLE(48)}, .expected = {.part = {1024, 64}}},

    {.name = "DRAIN, nothing queued", .call = COMMAND, .prepare = all_started,
     .record = {TRUNHOAC_DRAIN, 255}, .expected = {.reply = {[VALUES] = 0, 1}}},
    {.name = "DRAIN, 16 steps", .call = COMMAND, .prepare = queued_16_times, .steps = 16,
     .record = {TRUNHOAC_DRAIN, 255}, .expected = {.reply = {[VALUES] = 16, 1}}},
    {.name = "DRAIN, 255 steps", .call = COMMAND, .prepare = queued_255_times, .steps = 255,
     .record = {TRUNHOAC_DRAIN, 255}, .expected = {.reply = {[VALUES] = 255, 1}}},
    {.name = "DRAIN, slot 4, 255 steps by the first row", .call = COMMAND, .prepare = first_row_255_times, .steps = 255,
     .record = {TRUNHOAC_DRAIN, 255}, .expected = {.reply = {[VALUES] = 255, 1}}},
    {.name = "DRAIN, slot 4, 255 steps by the sixth row", .call = COMMAND, .prepare = sixth_row_255_times, .steps = 255,
     .record = {TRUNHOAC_DRAIN, 255}, .expected = {.reply = {[VALUES] = 255, 1}}},

    {.name = "DEFER", .call = COMMAND, .prepare = event_in_hand,
     .record = {TRUNHOAC_DEFER, 0}, .expected = {.reply = {[VALUES] = 1}}},
    {.name = "RECALL, nothing set aside", .call = COMMAND, .prepare = all_started,
     .record = {TRUNHOAC_RECALL, 0, 9}, .expected = {.reply = {[VALUES] = 0}}},
    {.name = "RECALL, one entry", .call = COMMAND, .prepare = event_aside_once,
     .record = {TRUNHOAC_RECALL, 0, 9}, .expected = {.reply = {[VALUES] = 1}}},
    {.name = "FLUSH, nothing set aside", .call = COMMAND, .prepare = all_started,
     .record = {TRUNHOAC_FLUSH, 0}, .expected = {.reply = {[VALUES] = 0}}},
    {.name = "FLUSH, 8 entries, freeing", .call = COMMAND, .prepare = event_aside_eight_times,
     .record = {TRUNHOAC_FLUSH, 0}, .expected = {.reply = {[VALUES] = 8}}},

    {.name = "FLAG", .call = COMMAND, .prepare = all_started,
     .record = {TRUNHOAC_FLAG, 9, 1, 1}, .expected = {.reply = {[VALUES] = 1}}},

    {.name = "chart_check, shift chart", .call = CHECK, .prepare = all_started, .chart = SHIFT_CHART,
     .expected = {.class = 0}},
    {.name = "chart_check, largest chart", .call = CHECK, .prepare = all_started, .chart = LARGEST_CHART,
     .expected = {.class = 0}},
    {.name = "chart_check_guarded", .call = CHECK_GUARDED, .prepare = all_started, .chart = GUARDED_CHART,
     .expected = {.class = 0}},
};

const size_t case_count = sizeof cases / sizeof cases[0];
